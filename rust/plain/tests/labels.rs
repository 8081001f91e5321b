//! Labels: no two of a section are the same (19), and what the reader writes for them.
use plain::make::{self, one_section as sheet, padded, Random, Setup, Tally};
use plain::{check, compile, notice, read, section, NoticeRefusal, Refusal};
use plain::{DESCRIPTION, LABEL, LONGEST_NOTICE, LONGEST_SHEET, LONGEST_STREAM, MOST, SECTIONS, SIZE};

fn refusal(number: u8, place: usize) -> Result<(), Refusal> {
    Err(Refusal { number, place })
}

/// A record without faults; the label is filled up with spaces. Bytes of 0 are a description but for a range.
fn record(section: usize, slot: u8, label: &str) -> Vec<u8> {
    let mut record = make::record(slot, label, &[]);
    record.resize(SIZE[section], 0);
    if section == 1 {
        [0, 4, 8].iter().for_each(|&number| record[DESCRIPTION + number] = 1);
    }
    record
}

/// Records with these labels, from slot 0 on.
fn records(section: usize, labels: &[&str]) -> Vec<Vec<u8>> {
    labels.iter().zip(0..).map(|(label, slot)| record(section, slot, label)).collect()
}

fn judged(section: usize, labels: &[&str]) -> Result<(), Refusal> {
    check(&sheet(section, records(section, labels)))
}

/// Where a record begins on a sheet that has those of one section alone.
fn place(section: usize, which: usize) -> usize {
    section + 1 + which * SIZE[section]
}

/// The sections that take three records or more.
const LONG: [usize; 3] = [0, 3, 4];

#[test]
fn equal_labels_of_a_section_are_refused() {
    for section in 0..SECTIONS {
        assert_eq!(judged(section, &["ONE", "TWO"]), Ok(()));
        assert_eq!(judged(section, &["ONE", "ONE"]), refusal(19, place(section, 1)));
        assert_eq!(judged(section, &["", ""]), refusal(19, place(section, 1)), "blank twice");
        assert_eq!(judged(section, &["", "ONE"]), Ok(()), "blank once");
        assert_eq!(judged(section, &["ONE", ""]), Ok(()), "blank once");
    }
    for section in LONG {
        assert_eq!(judged(section, &["ONE", "TWO", "ONE"]), refusal(19, place(section, 2)), "not adjacent");
        assert_eq!(judged(section, &["", "TWO", ""]), refusal(19, place(section, 2)));
        assert_eq!(judged(section, &["ONE", "ONE", "ONE"]), refusal(19, place(section, 1)));
        assert_eq!(judged(section, &["ONE", "TWO", "TWO", "ONE"]), refusal(19, place(section, 2)));
        assert_eq!(judged(section, &["ONE", "TWO", "ONE", "TWO"]), refusal(19, place(section, 2)));
    }
}

#[test]
fn all_bytes_of_a_label_count() {
    let cut = |text: &str| text[..LABEL].to_string();
    for section in 0..SECTIONS {
        let padding = format!("{:<1$}.", "AB", LABEL - 1);
        assert_eq!(judged(section, &["AB", &padding]), Ok(()), "equal but for the padding");
        assert_eq!(judged(section, &["AB", " AB"]), Ok(()));
        assert_eq!(judged(section, &["AB", "ab"]), Ok(()));
        assert_eq!(judged(section, &["AB", "ABAB"]), Ok(()));
        assert_eq!(judged(section, &["AB", "AB  "]), refusal(19, place(section, 1)));
        for label in ["ABCDEFGH", " ", "~"].map(|piece| cut(&piece.repeat(LABEL))) {
            for at in 0..LABEL {
                for byte in ["!", "A", "}", "9"] {
                    let mut other = label.clone();
                    other.replace_range(at..at + 1, byte);
                    let want = if other == label { refusal(19, place(section, 1)) } else { Ok(()) };
                    assert_eq!(judged(section, &[&label, &other]), want, "{label:?} {other:?}");
                }
            }
        }
    }
}

#[test]
fn sections_may_have_the_same_labels() {
    let mut setup = Setup::default();
    for section in 0..SECTIONS {
        setup.sections[section] = records(section, &["ONE", ""]);
    }
    assert_eq!(check(&setup.sheet()), Ok(()));
    // across a whole section between them, the last of one and the first of the next, or all of them
    setup.sections[1].clear();
    assert_eq!(check(&setup.sheet()), Ok(()));
    setup.sections[3] = records(3, &["", "ONE", "TWO"]);
    assert_eq!(check(&setup.sheet()), Ok(()));
    setup.sections[3] = records(3, &["", "ONE", "TWO", ""]);
    assert_eq!(check(&setup.sheet()), refusal(19, setup.count_at(3) + 1 + 3 * SIZE[3]));
}

/// What a record has wrong: the number, the section, where that stands in the description, and the byte.
const FAULTS: [(u8, usize, usize, u8); 9] = [
    (6, 1, 0, 0),     // lower 0
    (7, 1, 0, 2),     // lower 2, upper 1
    (8, 1, 4, 2),     // upper 2 for one line
    (8, 1, 8, 0),     // upper 1 for no line
    (10, 3, 0, 10),   // an operation
    (10, 3, 10, 255), // the last operation
    (18, 4, 2, 16),   // a number
    (18, 4, 4, 16),   // an else state
    (18, 4, 12, 2),   // the last flag
];

#[test]
fn nineteen_comes_before_the_faults_of_a_description() {
    for (number, section, at, byte) in FAULTS {
        let judged = |label| {
            let mut records = records(section, &["ONE", label]);
            records[1][DESCRIPTION + at] = byte;
            check(&sheet(section, records))
        };
        assert_eq!(judged("TWO"), refusal(number, place(section, 1)));
        assert_eq!(judged("ONE"), refusal(19, place(section, 1)), "and {number}");
    }
    for (label, number) in [("TWO", 9), ("ONE", 19)] {
        let mut edges = records(2, &["ONE", label]);
        [0, 4, 8].iter().for_each(|&event| edges[1][DESCRIPTION + event] = 1); // rise, fall and neither
        assert_eq!(check(&sheet(2, edges.clone())), refusal(number, place(2, 1)));
        // without the fall there is nothing wrong beside the label
        edges[1][DESCRIPTION + 4] = 0;
        assert_eq!(check(&sheet(2, edges)), if number == 19 { refusal(19, place(2, 1)) } else { Ok(()) });
    }
}

#[test]
fn nineteen_comes_behind_slot_and_label_bytes() {
    for section in 0..SECTIONS {
        let same = |change: fn(&mut Vec<u8>)| {
            let mut records = records(section, &["ONE", "ONE"]);
            change(&mut records[1]);
            check(&sheet(section, records))
        };
        assert_eq!(same(|record| record[0] = 100), refusal(3, place(section, 1)));
        assert_eq!(same(|record| record[0] = 0), refusal(4, place(section, 1)));
        // two labels with the same bad byte: the earlier record has a fault too
        for byte in [0x00, 0x1F, 0x7F, 0xFF] {
            let mut records = records(section, &["ONE", "ONE"]);
            records.iter_mut().for_each(|record| record[LABEL] = byte);
            assert_eq!(check(&sheet(section, records)), refusal(5, place(section, 0)));
        }
        assert_eq!(same(|record| record[LABEL] = 0x1F), refusal(5, place(section, 1)));
        // a record that lacks bytes, and the count
        let sheet = sheet(section, records(section, &["ONE", "ONE"]));
        let end = place(section, 2);
        assert_eq!(check(&sheet[..end - 1]), refusal(1, place(section, 1)));
        assert_eq!(check(&sheet[..place(section, 1) + DESCRIPTION]), refusal(1, place(section, 1)));
        assert_eq!(check(&sheet[..end]), refusal(19, place(section, 1)));
        assert_eq!(check(&[&sheet[..], &[0]].concat()), refusal(19, place(section, 1)), "before bytes left over");
        let many = vec![record(section, 0, "ONE"); usize::from(MOST[section]) + 1];
        assert_eq!(check(&make::one_section(section, many)), refusal(2, section));
    }
}

#[test]
fn an_earlier_fault_comes_first() {
    for (number, section, at, byte) in FAULTS {
        let mut equal = records(section, &["ONE", "ONE"]);
        equal[0][DESCRIPTION + at] = byte;
        assert_eq!(check(&sheet(section, equal)), refusal(number, place(section, 0)));
    }
    let mut sums = records(3, &["ONE", "TWO", "ONE"]);
    sums[1][DESCRIPTION] = 10;
    assert_eq!(check(&sheet(3, sums)), refusal(10, place(3, 1)));
    let mut sums = records(3, &["ONE", "ONE", "TWO"]);
    sums[2][0] = 48;
    assert_eq!(check(&sheet(3, sums)), refusal(19, place(3, 1)));
    // of two sections with equal labels the first, and whatever is wrong further on
    let mut setup = Setup::default();
    setup.sections[0] = records(0, &["ONE", "ONE"]);
    setup.sections[4] = records(4, &["ONE", "ONE"]);
    assert_eq!(check(&setup.sheet()), refusal(19, place(0, 1)));
    setup.sections[4] = vec![record(4, 16, "")];
    assert_eq!(check(&setup.sheet()), refusal(19, place(0, 1)));
    setup.sections[0] = vec![record(0, 10, "")];
    setup.sections[4] = records(4, &["ONE", "ONE"]);
    assert_eq!(check(&setup.sheet()), refusal(3, place(0, 0)));
}

/// Every slot of a section taken, with labels that differ in their last bytes alone.
fn full(section: usize) -> Vec<Vec<u8>> {
    (0..MOST[section]).map(|slot| record(section, slot, &format!("LABEL {slot:02}"))).collect()
}

#[test]
fn every_two_records_of_a_full_section() {
    for section in 0..SECTIONS {
        let all = full(section);
        assert_eq!(check(&sheet(section, all.clone())), Ok(()), "all different");
        for later in 0..all.len() {
            for earlier in 0..later {
                let mut records = all.clone();
                records[later][1..DESCRIPTION].copy_from_slice(&all[earlier][1..DESCRIPTION]);
                assert_eq!(check(&sheet(section, records)), refusal(19, place(section, later)), "{earlier} {later}");
            }
        }
    }
}

#[test]
fn every_call_on_a_sheet_refuses() {
    let (good, bad) = (sheet(0, records(0, &["ONE", "TWO"])), sheet(0, records(0, &["ONE", "ONE"])));
    let why = Refusal { number: 19, place: place(0, 1) };
    assert_eq!((section(&good, 0), section(&bad, 0)), ((0, 1, 2 * SIZE[0]), (19, 0, 0)));
    let mut out = [7; LONGEST_STREAM];
    assert_eq!(compile(&bad, &mut out), Err(why));
    assert_eq!(compile(&bad, &mut []), Err(why), "before 12");
    assert_eq!(notice(&bad, &good, &mut out), Err(NoticeRefusal::Old(why)));
    assert_eq!(notice(&good, &bad, &mut out), Err(NoticeRefusal::New(why)));
    assert_eq!(notice(&bad, &[], &mut out), Err(NoticeRefusal::Old(why)));
    assert_eq!(out, [7; LONGEST_STREAM]);
    // that a label stands on both sheets is nothing, in another slot too
    let swapped = sheet(0, records(0, &["TWO", "ONE"]));
    assert_eq!(notice(&good, &swapped, &mut out), Ok(26));
    assert_eq!(out[..26], *b"TERM 00 NAME\nTERM 01 NAME\n");
}

fn back(sheet: &[u8]) -> Vec<u8> {
    let mut out = vec![0; LONGEST_SHEET];
    let length = read(&make::stream(sheet), &mut out).expect("the commands of an accepted sheet");
    out.truncate(length);
    out
}

#[test]
fn the_readers_labels() {
    for (section, slot, label) in [
        (0, 0, "T00"),
        (0, 9, "T09"),
        (1, 0, "R00"),
        (1, 1, "R01"),
        (2, 0, "E00"),
        (2, 1, "E01"),
        (3, 0, "S00"),
        (3, 7, "S07"),
        (3, 10, "S10"),
        (3, 47, "S47"),
        (4, 0, "Q00"),
        (4, 15, "Q15"),
    ] {
        let mut want = sheet(section, vec![record(section, slot, "DOORLOCK")]);
        let got = back(&want);
        want[section + 2..][..LABEL].copy_from_slice(&padded(label));
        assert_eq!(got, want);
        assert_eq!(check(&got), Ok(()));
    }
}

#[test]
fn what_the_reader_writes_is_accepted() {
    let mut setup = Setup::default();
    for section in 0..SECTIONS {
        setup.sections[section] = full(section);
    }
    let mut random = Random(6);
    for round in 0..5_000 {
        let got = back(&setup.sheet());
        assert!(got == make::read_back(&setup.sheet()), "sheet {:02X?}", setup.sheet());
        assert_eq!(check(&got), Ok(()));
        assert!(make::stream(&got) == make::stream(&setup.sheet()));
        assert!(back(&got) == got, "read once more, it is the same");
        setup = Setup::random(&mut random, round % 9);
    }
}

#[test]
fn a_label_given_to_another_record() {
    let mut random = Random(7);
    let (mut equal, mut across) = ([0; SECTIONS], 0);
    for round in 0..20_000 {
        let mut setup = Setup::random(&mut random, round % 9);
        assert_eq!(check(&setup.sheet()), Ok(()));
        across += usize::from(setup.label_across(&mut random));
        assert_eq!(check(&setup.sheet()), Ok(()), "the label of another section");
        if let Some((section, later)) = setup.same_label(&mut random) {
            let place = setup.count_at(section) + 1 + later * SIZE[section];
            assert_eq!(check(&setup.sheet()), refusal(19, place));
            equal[section] += 1;
        }
    }
    assert!(across > 8_000 && equal.iter().all(|&times| times > 1_000), "{across} {equal:?}");
}

/// Where each record of a sheet begins, and whether an earlier one of its section has its label; as far as the bytes go
/// and the counts may be.
fn labelled(sheet: &[u8]) -> Vec<(usize, bool)> {
    let (mut found, mut at) = (Vec::new(), 0);
    for section in 0..SECTIONS {
        let Some(&count) = sheet.get(at).filter(|&&count| count <= MOST[section]) else { break };
        at += 1;
        let mut met: Vec<&[u8]> = Vec::new();
        for _ in 0..count {
            let Some(label) = sheet.get(at + 1..at + DESCRIPTION) else { return found };
            found.push((at, met.contains(&label)));
            met.push(label);
            at += SIZE[section];
        }
    }
    found
}

#[test]
fn nineteen_exactly_where_a_label_stands_twice() {
    let mut random = Random(8);
    // the answers; those that 19 comes behind; what is wrong beside 19 in its record
    let (mut tally, mut ahead, mut beside) = (Tally::default(), Tally::default(), Tally::default());
    for _ in 0..100_000 {
        let taken = random.below(9);
        let setup = Setup::random(&mut random, taken);
        let sheet = make::damaged_sheet(&mut random, &setup);
        let answer = check(&sheet);
        let (number, place) = answer.map_or_else(|refusal| (refusal.number, refusal.place), |()| (0, sheet.len()));
        let labelled = labelled(&sheet);
        assert!(labelled.iter().all(|&(at, twice)| at >= place || !twice), "sheet {sheet:02X?}");
        tally.count(number);
        if !labelled.contains(&(place, true)) {
            assert_ne!(number, 19, "sheet {sheet:02X?}");
        } else if number != 19 {
            ahead.count(number);
        } else {
            let mut other = sheet;
            other[place + 1..place + DESCRIPTION].copy_from_slice(&padded("~NOBODY~"));
            beside.count(check(&other).err().filter(|next| next.place == place).map_or(0, |next| next.number));
        }
    }
    tally.expect(&[1..=11, 18..=19], 10_000, 500);
    ahead.expect(&[1..=1, 3..=4], 0, 10); // not 5: the earlier record has that bad byte too
    beside.expect(&[6..=10, 18..=18], 1_000, 30);
}

#[test]
fn near_sheets_are_accepted() {
    let mut random = Random(9);
    let mut setup = Setup::random(&mut random, 4);
    for _ in 0..2_000 {
        let next = setup.near(&mut random);
        assert_eq!(check(&next.sheet()), Ok(()));
        assert!(compile(&next.sheet(), &mut [0; LONGEST_STREAM]).is_ok());
        assert!(notice(&setup.sheet(), &next.sheet(), &mut [0; LONGEST_NOTICE]).is_ok());
        setup = next;
    }
}
