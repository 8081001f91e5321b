//! The bench examples of the rules, those marked P and the others, on the plain implementation.
use plain::make::{self, padded, Setup};
use plain::{check, compile, gather, notice, notice_agrees, read, scan_telling_sum, section, Refusal};
use plain::{edge_hit, range_hit, run_edge, run_range, telling_sum, term_hit};
use plain::{edge_words, range_words, state_word, sum_words, term_words};
use plain::{DESCRIPTION, LABEL, LONGEST_NOTICE, LONGEST_SHEET, LONGEST_STREAM, MOST, SECTIONS, SIZE};

const TERMS: usize = 0;
const RANGES: usize = 1;
const EDGES: usize = 2;
const SUMS: usize = 3;
const STATES: usize = 4;

fn refusal<T>(number: u8, place: usize) -> Result<T, Refusal> {
    Err(Refusal { number, place })
}

fn record(slot: u8, label: &str, numbers: &[u32]) -> Vec<u8> {
    make::record(slot, label, &numbers.iter().flat_map(|n| n.to_le_bytes()).collect::<Vec<u8>>())
}

/// A label for each slot, where a section has several records.
fn label(slot: u8) -> String {
    format!("LABEL {slot:02}")
}

/// The flags by their bits, the lowest first.
fn state(slot: u8, number: u32, else_state: u8, flags: u8) -> Vec<u8> {
    let mut record = record(slot, &label(slot), &[number]);
    record.push(else_state);
    record.extend((0..8).map(|bit| flags >> bit & 1));
    record
}

/// The operations by their codes.
fn sum(slot: u8, operations: [u8; 11]) -> Vec<u8> {
    [record(slot, &label(slot), &[]), operations.to_vec()].concat()
}

/// A sheet with the records of these sections, and none of the others.
fn sheet<const N: usize>(sections: [(usize, Vec<Vec<u8>>); N]) -> Vec<u8> {
    let mut setup = Setup::default();
    for (section, records) in sections {
        setup.sections[section] = records;
    }
    setup.sheet()
}

/// Where a record begins on a sheet that has those of one section alone.
fn place(section: usize, which: usize) -> usize {
    section + 1 + which * SIZE[section]
}

/// How long such a sheet is.
fn length(section: usize, records: usize) -> usize {
    SECTIONS + records * SIZE[section]
}

fn range_sheet(lower: u32, upper: u32, mask: u32) -> Vec<u8> {
    sheet([(RANGES, vec![record(0, "LABEL", &[lower, upper, mask])])])
}

fn edge_sheet(edge: [u32; 3]) -> Vec<u8> {
    sheet([(EDGES, vec![record(0, "LABEL", &edge)])])
}

fn sum_sheet(sums: &[Vec<u8>]) -> Vec<u8> {
    sheet([(SUMS, sums.to_vec())])
}

fn state_sheet(states: &[Vec<u8>]) -> Vec<u8> {
    sheet([(STATES, states.to_vec())])
}

fn command(opcode: u8, number: u32) -> Vec<u8> {
    [vec![opcode], number.to_le_bytes().to_vec()].concat()
}

fn noticed(old: &[u8], new: &[u8]) -> String {
    let mut out = [0; LONGEST_NOTICE];
    let length = notice(old, new, &mut out).expect("two accepted sheets and room");
    notice_agrees(old, new, &out[..length], scan_telling_sum).expect("its own notice agrees");
    String::from_utf8(out[..length].to_vec()).expect("plain letters")
}

#[test]
fn term_words_of_the_bench() {
    assert_eq!(term_words(5, 0xF), [0xFFFFFFFF, 0xFFFFFFFF, 0xFFFFFFFF, 0xFFFF0020]);
    assert_eq!(term_words(0x12345678, 0), [0xFFFFFFFF; 4]);
    assert!(term_hit(1, 0, 0) && term_hit(0, 0, 1), "mask 0 hits always");
}

#[test]
fn range_three_to_nine() {
    let words = range_words(3, 9, 0xF);
    assert_eq!(words[..14], [0xFFFFFFFF; 14]);
    assert_eq!(words[14..16], [0x55555555, 0xAAAA5555]);
    assert_eq!(words[16..30], [0xFFFFFFFF; 14]);
    assert_eq!(words[30..], [0xAAAA5555, 0x5555AAAA]);
    for (sample, hit) in [(2, false), (0xA, false), (3, true), (9, true), (0x13, true)] {
        assert_eq!(run_range(&words, sample), Ok(hit));
        assert_eq!(range_hit(3, 9, 0xF, sample), hit);
    }
}

#[test]
fn gathering() {
    assert_eq!(gather(0x0880, 0x8A80), 5);
    assert_eq!(gather(0xFFFFFFFF, 0), 0);
    assert_eq!(gather(0xDEADBEEF, 0xFFFFFFFF), 0xDEADBEEF);
}

#[test]
fn ranges_accepted_and_refused() {
    assert_eq!(check(&range_sheet(0, 1, 1)), refusal(6, place(RANGES, 0)));
    assert_eq!(check(&range_sheet(0, 0, 0)), refusal(6, place(RANGES, 0)));
    assert_eq!(check(&range_sheet(2, 1, 3)), refusal(7, place(RANGES, 0)));
    assert_eq!(check(&range_sheet(1, 1, 1)), Ok(()));
    assert_eq!(check(&range_sheet(1, 2, 1)), refusal(8, place(RANGES, 0)));
    assert_eq!(check(&range_sheet(1, 1, 0)), refusal(8, place(RANGES, 0)));
    assert_eq!(check(&range_sheet(1, 0xFFFFFFFF, 0xFFFFFFFF)), Ok(()));
}

#[test]
fn two_ranges_that_hit_alike() {
    assert_eq!(noticed(&range_sheet(2, 3, 3), &range_sheet(1, 1, 2)), "RANG 00 WORD\n");
}

#[test]
fn edge_words_of_the_bench() {
    assert_eq!(edge_words(1, 0, 0), [0, 0, 0, 0, 0, 0, 0, 0x00000A0A]);
    assert_eq!(edge_words(1 << 31, 0, 0), [0x00CC0000, 0, 0, 0, 0, 0, 0, 0]);
}

/// The commands of the edge in slot 0 with this table for lines 0 and 1, and no other.
fn edge_stream(table: u32) -> Vec<u8> {
    [command(0x9E, 0x34), command(0x9F, 0).repeat(7), command(0x9F, table)].concat()
}

/// A line that stays or moves one way only: the table by what it means, and by the events' tables of the rules.
#[test]
fn lines_that_stay_or_rise() {
    for (edge, table, events) in [
        ([1, 0, 1], 0xAFAF, 0x0A0A | 0xA5A5),                   // line 0: rise, neither
        ([0, 1, 1], 0xF5F5, 0x5050 | 0xA5A5),                   // line 0: fall, neither
        ([2, 0, 2], 0xCCFF, 0x00CC | 0xCC33),                   // line 1: rise, neither
        ([0, 2, 2], 0xFF33, 0x3300 | 0xCC33),                   // line 1: fall, neither
        ([1, 2, 3], 0xFFBF, 0x0A0A | 0xA5A5 | 0x3300 | 0xCC33), // line 0: rise, neither; line 1: fall, neither
        ([2, 3, 1], 0xF7FD, 0x5050 | 0xA5A5 | 0x00CC | 0x3300), // line 0: fall, neither; line 1: rise, fall
    ] {
        // the later sample is on the two lowest inputs, the earlier one on the two above
        let [rise, fall, neither] = edge;
        let hit = |address: u32| edge_hit(rise, fall, neither, address >> 2, address & 3);
        let meant = (0..16).fold(0, |table, address| table | u32::from(hit(address)) << address);
        assert_eq!((meant, events), (table, table), "{edge:?}");
        let words = [0, 0, 0, 0, 0, 0, 0, table];
        assert_eq!(edge_words(rise, fall, neither), words, "{edge:?}");
        assert!((0..16).all(|n| run_edge(&words, n >> 2, n & 3) == Ok(hit(n))), "{edge:?}");
        // lines 30 and 31 are the upper half of the first word
        assert_eq!(edge_words(rise << 30, fall << 30, neither << 30), [table << 16, 0, 0, 0, 0, 0, 0, 0], "{edge:?}");
        let (mut out, mut back) = ([0; 45], vec![0; length(EDGES, 1)]);
        assert_eq!(compile(&edge_sheet(edge), &mut out), Ok(45));
        assert_eq!(out, edge_stream(table)[..], "{edge:?}");
        assert_eq!(read(&out, &mut back), Ok(back.len()));
        assert_eq!(back, sheet([(EDGES, vec![record(0, "E00", &edge)])]), "{edge:?}");
    }
}

#[test]
fn edges_accepted_and_refused() {
    for line in 0..32 {
        for wish in 0..8 {
            let edge = [wish & 1, wish >> 1 & 1, wish >> 2].map(|asked| asked << line);
            let want = if wish == 7 { refusal(9, place(EDGES, 0)) } else { Ok(()) };
            assert_eq!(check(&edge_sheet(edge)), want, "line {line}: {edge:X?}");
            // and where every other line stays or rises
            let others = !(1 << line);
            let among = [edge[0] | others, edge[1], edge[2] | others];
            assert_eq!(check(&edge_sheet(among)), want, "line {line}: {among:X?}");
        }
    }
    assert_eq!(check(&edge_sheet([u32::MAX, 0, u32::MAX])), Ok(()));
    assert_eq!(check(&edge_sheet([u32::MAX; 3])), refusal(9, place(EDGES, 0)));
    // FFFF is what all three would be, on whichever line; the others come of no wishes at all
    let mut out = vec![0x77; length(EDGES, 1)];
    for table in [0xFFFF, 0xAFAE, 0xAFBF, 0xFFFE, 0x7FFF, 0xEFEF] {
        assert_eq!(read(&edge_stream(table), &mut out), refusal(16, 0), "{table:04X}");
    }
    assert!(out.iter().all(|&byte| byte == 0x77));
}

#[test]
fn edges_in_a_notice() {
    let altered = |old, new| noticed(&edge_sheet(old), &edge_sheet(new));
    assert_eq!(altered([0, 0, 1], [1, 0, 1]), "EDGE 00 ALTR 00000000 00000001\n", "stays; stays or rises");
    assert_eq!(altered([0, 0, 1], [0, 1, 1]), "EDGE 00 ALTR 00000001 00000000\n", "stays; stays or falls");
    assert_eq!(altered([1, 0, 1], [1, 0, 0]), "EDGE 00 ALTR 00000000 00000000\n", "stays or rises; rises");
    assert_eq!(altered([1, 0, 1], [1, 1, 0]), "EDGE 00 ALTR 00000000 00000000\n", "does not fall; does not stay");
    // on every other line the new one asks for all but a fall, so they fall
    let all = u32::MAX;
    assert_eq!(altered([all, 0, all], [all - 1, 0, all]), "EDGE 00 ALTR FFFFFFFE 00000001\n");
    assert_eq!(altered([1, 0, 1], [1, 0, 1]), "");
}

#[test]
fn streams_of_the_bench() {
    let mut out = [0; LONGEST_SHEET];
    for opcode in [0, 0x9E, 0x9F] {
        assert_eq!(read(&[opcode, 0, 0, 0], &mut out), refusal(13, 0));
    }
    assert_eq!(read(&command(0x9F, 0), &mut out), refusal(14, 0));
    assert_eq!(read(&command(0x9E, 0x43), &mut out), refusal(15, 0));
    assert_eq!(read(&command(0x9E, 0x120), &mut out), refusal(15, 0));
    assert_eq!(read(&[], &mut out), Ok(SECTIONS));
    assert_eq!(out[..SECTIONS], [0; SECTIONS]);
}

#[test]
fn places_in_a_stream() {
    let mut out = [0; LONGEST_SHEET];
    let mut stream = vec![0; LONGEST_STREAM];
    let length = compile(&range_sheet(3, 9, 0xF), &mut stream).unwrap();
    stream.truncate(length);
    assert_eq!(length, 170);
    assert_eq!(read(&stream[..85], &mut out), refusal(13, 85), "the upper chain is missing");
    assert_eq!(read(&stream[..84], &mut out), refusal(13, 80));
    assert_eq!(read(&[&stream[..85], &command(0x9F, 0)].concat(), &mut out), refusal(14, 85));
    assert_eq!(read(&[&stream[..85], &command(0x9E, 0x32)].concat(), &mut out), refusal(15, 85));
    assert_eq!(read(&stream[85..], &mut out), refusal(15, 0), "31 without 30");
    assert_eq!(read(&[&stream[..], &stream[..]].concat(), &mut out), refusal(15, 170), "met before");
    stream[169] = 0;
    assert_eq!(read(&stream, &mut out), refusal(16, 0));
    // 16 before what comes after the item
    stream.push(0);
    assert_eq!(read(&stream, &mut out), refusal(16, 0));
}

#[test]
fn fields_of_a_state_and_their_bits() {
    // the flags' bytes in the order of their bits: stop, clear, start of each timer, trigger, last
    for (flag, bit) in (0..8).zip(24..32) {
        let mut flags = [0; 8];
        flags[flag] = 1;
        assert_eq!(state_word(0, 0, flags), 1 << bit);
    }
    assert_eq!(state_word(0xF_FFFF, 0, [0; 8]), 0x000F_FFFF);
    assert_eq!(state_word(0, 15, [0; 8]), 0x00F0_0000);
    assert_eq!(state_word(0, 0, [0; 8]), 0);
    assert_eq!(state_word(0xF_FFFF, 15, [1; 8]), 0xFFFF_FFFF);
    assert_eq!(state_word(3, 7, [0, 0, 0, 0, 1, 0, 1, 0]), 0x5070_0003);
}

#[test]
fn states_accepted_and_refused() {
    let judged = |number, else_state, flag: usize, value| {
        let mut record = state(0, number, else_state, 0);
        record[DESCRIPTION + 5 + flag] = value;
        check(&state_sheet(&[record]))
    };
    assert_eq!(judged(0, 0, 0, 0), Ok(()));
    assert_eq!(judged(0xF_FFFF, 15, 0, 1), Ok(()));
    for number in [0x10_0000, 0x10_0001, 0x100_0000, 0xFFFF_FFFF] {
        assert_eq!(judged(number, 0, 0, 0), refusal(18, place(STATES, 0)), "number {number:X}");
    }
    for else_state in [16, 17, 255] {
        assert_eq!(judged(1, else_state, 0, 0), refusal(18, place(STATES, 0)), "else {else_state}");
    }
    for flag in 0..8 {
        assert_eq!(judged(1, 0, flag, 1), Ok(()));
        assert_eq!(judged(1, 0, flag, 2), refusal(18, place(STATES, 0)), "flag {flag}");
        assert_eq!(judged(1, 0, flag, 255), refusal(18, place(STATES, 0)), "flag {flag}");
    }
}

#[test]
fn eighteen_comes_last_in_a_record_and_at_its_place() {
    let bad = state(7, 0x10_0000, 16, 0);
    assert_eq!(check(&state_sheet(&[state(6, 1, 0, 0), bad.clone()])), refusal(18, place(STATES, 1)));
    assert_eq!(check(&state_sheet(&[state(7, 1, 0, 0), bad.clone()])), refusal(4, place(STATES, 1)));
    let mut label = bad.clone();
    label[1] = 0x1F;
    assert_eq!(check(&state_sheet(&[label])), refusal(5, place(STATES, 0)));
    let mut slot = bad.clone();
    slot[0] = 16;
    assert_eq!(check(&state_sheet(&[slot])), refusal(3, place(STATES, 0)));
    let sheet = state_sheet(&[bad]);
    assert_eq!(check(&sheet[..place(STATES, 1) - 1]), refusal(1, place(STATES, 0)));
    assert_eq!(check(&[&sheet[..], &[0]].concat()), refusal(18, place(STATES, 0)), "before bytes left over");
    assert_eq!(check(&state_sheet(&vec![state(0, 1, 0, 0); 17])), refusal(2, STATES));
}

#[test]
fn states_go_out_first() {
    let (low, high) = (state(0, 1, 2, 0), state(15, 0xABCDE, 15, 0x81));
    let sheet = sheet([(TERMS, vec![record(0, "LABEL", &[5, 0xF])]), (STATES, vec![low, high])]);
    let mut stream = [0; 45];
    assert_eq!(compile(&sheet, &mut stream), Ok(45));
    let numbers: Vec<(u8, u32)> =
        stream.chunks(5).map(|c| (c[0], u32::from_le_bytes(c[1..].try_into().unwrap()))).collect();
    assert_eq!(numbers[..4], [(0x9E, 0x00), (0x9F, 0x0020_0001), (0x9E, 0x0F), (0x9F, 0x81FA_BCDE)]);
    assert_eq!(numbers[4], (0x9E, 0x20));
    let mut back = vec![0; sheet.len()];
    assert_eq!(read(&stream, &mut back), Ok(sheet.len()));
    let mut labelled = String::from_utf8_lossy(&sheet).into_owned();
    for (label, reads) in [("LABEL", "T00"), ("LABEL 00", "Q00"), ("LABEL 15", "Q15")] {
        let (label, reads) = (format!("{label:<LABEL$}"), format!("{reads:<LABEL$}"));
        assert!(labelled.contains(&label));
        labelled = labelled.replace(&label, &reads);
    }
    assert_eq!(String::from_utf8_lossy(&back), labelled);
}

#[test]
fn states_in_a_stream() {
    let mut out = [0; LONGEST_SHEET];
    let select = |address| command(0x9E, address);
    let item = |address, word| [select(address), command(0x9F, word)].concat();
    for slot in 0..16 {
        // no word is refused
        for word in [0, 1, 0x000F_FFFF, 0x0010_0000, 0x5AA5_5AA5, 0x8000_0000, 0xFFFF_FFFF] {
            let back = read(&item(slot, word), &mut out).map(|length| &out[..length]);
            let mut want = state(slot as u8, word & 0xF_FFFF, (word >> 20 & 15) as u8, (word >> 24) as u8);
            want[1..DESCRIPTION].copy_from_slice(&padded(&format!("Q{slot:02}")));
            assert_eq!(back, Ok(&state_sheet(&[want])[..]));
            assert_eq!(back.and_then(check), Ok(()));
        }
    }
    for address in [0x10, 0x1F, 0x100, 0x0100_0000, 0x8000_0000] {
        assert_eq!(read(&item(address, 0), &mut out), refusal(15, 0), "{address:X}");
    }
    assert_eq!(read(&item(0, 0)[..9], &mut out), refusal(13, 5));
    assert_eq!(read(&select(0), &mut out), refusal(13, 5));
    assert_eq!(read(&[select(0), select(1)].concat(), &mut out), refusal(14, 5));
    assert_eq!(read(&[item(0, 0), item(0, 0)].concat(), &mut out), refusal(15, 10), "met before");
    assert_eq!(read(&[item(2, 0), item(1, 0)].concat(), &mut out), refusal(15, 10), "falling");
    let term = [select(0x20), command(0x9F, 0xFFFF_FFFF).repeat(4)].concat();
    assert_eq!(read(&[&term[..], &item(0, 0)].concat(), &mut out), refusal(15, 25), "a state behind a term");
    assert_eq!(read(&[&item(15, 0)[..], &term].concat(), &mut out), Ok(SECTIONS + SIZE[TERMS] + SIZE[STATES]));
}

#[test]
fn states_in_a_notice() {
    let one = |number, else_state, flags| state_sheet(&[state(0, number, else_state, flags)]);
    assert_eq!(noticed(&one(0, 0, 0), &one(1, 0, 0)), "STAT 00 ALTR\n", "0 and 1 are different numbers");
    assert_eq!(noticed(&one(1, 0, 0), &one(1, 15, 0)), "STAT 00 ALTR\n");
    for flag in 0..8 {
        assert_eq!(noticed(&one(1, 0, 0), &one(1, 0, 1 << flag)), "STAT 00 ALTR\n");
    }
    assert_eq!(noticed(&one(1, 2, 3), &one(1, 2, 3)), "");
    let mut named = state(15, 1, 0, 0);
    named[1] = b'X';
    let old = state_sheet(&[state(3, 1, 0, 0), state(9, 1, 0, 0), state(15, 1, 0, 0)]);
    let new = state_sheet(&[state(9, 1, 0, 0), state(10, 1, 0, 0), named.clone()]);
    assert_eq!(noticed(&old, &new), "STAT 03 GONE\nSTAT 10 NEW\nSTAT 15 NAME\n");
    named[DESCRIPTION + 4] = 1; // another else state
    let altered = state_sheet(&[named.clone()]);
    assert_eq!(noticed(&state_sheet(&[state(15, 1, 0, 0)]), &altered), "STAT 15 NAME\nSTAT 15 ALTR\n");
    // behind the sums
    let sums = sheet([(SUMS, vec![sum(47, [0; 11])]), (STATES, vec![named])]);
    assert_eq!(noticed(&state_sheet(&[state(0, 1, 0, 0)]), &sums), "SUMS 47 NEW\nSTAT 00 GONE\nSTAT 15 NEW\n");
}

#[test]
fn sums_in_a_notice() {
    let one = |operations| sum_sheet(&[sum(0, operations)]);
    let altered = |old, new| noticed(&one(old), &one(new));
    // ab AND, OR: a without b, and b without a
    assert_eq!(altered([2, 0, 0, 0, 0, 0, 0, 0, 4, 0, 4], [4, 0, 0, 0, 0, 0, 0, 0, 4, 0, 4]), "SUMS 00 ALTR 0001\n");
    // the same under a mid that never asks, and in a half that the final operation leaves out
    assert_eq!(altered([2, 0, 0, 0, 0, 0, 0, 0, 0, 0, 4], [4, 0, 0, 0, 0, 0, 0, 0, 0, 0, 4]), "SUMS 00 WORD\n");
    assert_eq!(altered([2, 0, 0, 0, 8, 0, 0, 0, 4, 4, 9], [4, 0, 0, 0, 8, 0, 0, 0, 4, 4, 9]), "SUMS 00 WORD\n");
    // neither mid, and both of their opposites
    assert_eq!(altered([8, 0, 0, 0, 8, 0, 0, 0, 4, 4, 5], [8, 0, 0, 0, 8, 0, 0, 0, 5, 5, 2]), "SUMS 00 WORD\n");
    // j's second source alone
    assert_eq!(altered([0, 0, 0, 0, 0, 0, 0, 9, 0, 4, 4], [0; 11]), "SUMS 00 ALTR 8000\n");
    // all sources, and nothing
    assert_eq!(altered([2; 11], [0; 11]), "SUMS 00 ALTR FFFF\n");
    assert_eq!(altered([0; 11], [1; 11]), "SUMS 00 ALTR 0000\n");
    assert_eq!(altered([7; 11], [7; 11]), "");
    let mut named = sum(47, [0; 11]);
    named[1] = b'X';
    let old = sum_sheet(&[sum(3, [0; 11]), sum(9, [0; 11]), sum(46, [6; 11]), sum(47, [1; 11])]);
    let new = sum_sheet(&[sum(9, [5, 0, 0, 0, 0, 0, 0, 0, 0, 0, 0]), sum(10, [0; 11]), sum(46, [6; 11]), named]);
    let text = "SUMS 03 GONE\nSUMS 09 WORD\nSUMS 10 NEW\nSUMS 47 NAME\nSUMS 47 ALTR 0000\n";
    assert_eq!(noticed(&old, &new), text);
}

#[test]
fn the_notice_given_whole() {
    let range = record(0, "LEVELS", &[3, 9, 0xF]);
    let terms = vec![record(0, "DOORLOCK", &[5, 0xF]), record(1, "BRAKE", &[4, 0xF])];
    let old = sheet([(TERMS, terms), (RANGES, vec![range])]);
    let terms = vec![record(0, "DOORLK", &[5, 0xF]), record(1, "BRAKE", &[6, 0xF]), record(2, "LABEL", &[1, 1])];
    let new = sheet([(TERMS, terms)]);
    let text = noticed(&old, &new);
    assert_eq!(text, "TERM 00 NAME\nTERM 01 ALTR 00000004\nTERM 02 NEW\nRANG 00 GONE\n");
    assert_eq!(text.len(), 60);
    assert_eq!(noticed(&old, &old), "");
    let mut out = [7; 60];
    assert_eq!(notice(&old, &new, &mut out[..59]), Err(plain::NoticeRefusal::Short { needed: 60 }));
    assert_eq!(out, [7; 60]);
}

#[test]
fn wrong_notices_do_not_agree() {
    let made = |target, upper, fall, ab, number| {
        let sums = vec![sum(5, [ab, 0, 0, 0, 0, 0, 0, 0, 4, 0, 4]), sum(6, [ab, 0, 0, 0, 0, 0, 0, 0, 0, 0, 4])];
        sheet([
            (TERMS, vec![record(1, "LABEL", &[target, 0xF])]),
            (RANGES, vec![record(0, "LABEL", &[3, upper, 0xF])]),
            (EDGES, vec![record(1, "LABEL", &[1, fall, 4])]),
            (SUMS, sums),
            (STATES, vec![state(7, number, 0, 0)]),
        ])
    };
    let (old, new) = (made(4, 9, 2, 2, 1), made(6, 8, 0, 4, 2));
    let agrees = |text: &str| {
        let by_scan = notice_agrees(&old, &new, text.as_bytes(), scan_telling_sum);
        assert_eq!(by_scan, notice_agrees(&old, &new, text.as_bytes(), telling_sum));
        by_scan.is_ok()
    };
    let good = concat!(
        "TERM 01 ALTR 00000004\nRANG 00 ALTR 00000009\nEDGE 01 ALTR 00000002 00000004\n",
        "SUMS 05 ALTR 0001\nSUMS 06 WORD\nSTAT 07 ALTR\n",
    );
    assert!(agrees(good));
    assert!(agrees(&good.replace("ALTR 00000009", "ALTR FFFFFFF9")), "any telling sample of a range");
    assert!(agrees(&good.replace("2 00000004", "A 00000004")), "any telling pair of an edge");
    assert!(agrees(&good.replace("ALTR 0001", "ALTR FFFD")), "any telling pattern of a sum");
    for (from, to) in [
        ("00000004\nR", "00000006\nR"),             // tells, but is not the least
        ("00000009", "00000008"),                   // does not tell
        ("00000009", "0000000a"),                   // no capital digits, and does not tell
        ("FFFFFFF9", "fffffff9"),                   // no capital digits
        ("00000002 00000004", "00000000 00000004"), // nothing happens that one of them asks
        ("00000002 00000004", "00000002_00000004"),
        ("TERM 01", "TERM 02"),
        ("EDGE 01 ALTR 00000002 00000004\n", ""),
        ("RANG 00 ALTR 00000009\n", "RANG 00 WORD\n"),
        ("RANG", "EDGE"),
        ("ALTR 0001", "ALTR 0003"), // does not tell
        ("ALTR 0001", "ALTR fffd"), // no capital digits
        ("ALTR 0001", "ALTR 00000001"),
        ("ALTR 0001", "ALTR"),
        ("ALTR 0001", "WORD"),
        ("SUMS 06 WORD", "SUMS 06 ALTR 0001"),
        ("SUMS 06 WORD\n", ""),
        ("4\n", "4\r\n"),
        ("STAT 07 ALTR\n", ""),
        ("STAT 07 ALTR\n", "STAT 07 ALTR \n"), // neither a space nor a sample
        ("STAT 07 ALTR\n", "STAT 07 ALTR 00000000\n"),
        ("STAT 07 ALTR\n", "STAT 07 WORD\n"),
    ] {
        let good = if from.starts_with('F') { good.replace("ALTR 00000009", "ALTR FFFFFFF9") } else { good.into() };
        assert!(good.contains(from));
        assert!(!agrees(&good.replacen(from, to, 1)), "{from} {to}");
    }
    assert!(!agrees(&format!("{good}\n")) && !agrees("") && !agrees(good.trim_end()));
}

#[test]
fn sums() {
    let words = sum_words(&[2, 3, 4, 5, 6, 7, 8, 9, 6, 8, 3]);
    assert_eq!(words, [0x0007, 0xEEEE0116, 0xF0008888, 0x87777888, 0x0777F888, 0x7FFF8000]);
}

/// The last operation's A and B are 000A and 000C; the words that they had before are no sum's.
#[test]
fn final_a_and_b() {
    let stream = |word| [command(0x9E, 0x40), command(0x9F, word), command(0x9F, 0).repeat(5)].concat();
    let mut out = [0x77; LONGEST_SHEET];
    for (code, word) in [(8, 0x000A), (9, 0x000C)] {
        assert_eq!(sum_words(&[0, 0, 0, 0, 0, 0, 0, 0, 0, 0, code]), [word, 0, 0, 0, 0, 0]);
        let want = [record(0, "S00", &[]), vec![0; 10], vec![code]].concat();
        assert_eq!(read(&stream(word), &mut out), Ok(length(SUMS, 1)));
        assert_eq!(out[..length(SUMS, 1)], sum_sheet(&[want]));
    }
    out.fill(0x77);
    for word in [0x0002, 0x0004, 0xA_0000, 0xA_000A] {
        assert_eq!(read(&stream(word), &mut out), refusal(16, 0), "{word:04X}");
    }
    assert_eq!(out, [0x77; LONGEST_SHEET]);
    // the listing's mids and pairs stay
    assert_eq!(sum_words(&[8, 9, 8, 9, 8, 9, 8, 9, 8, 9, 0])[1..3], [0xFFF0EEEE, 0xF0008888]);
}

/// The rules' own numbers: they stand here by hand, and nowhere else in these tests.
#[test]
fn lengths_of_the_rules() {
    assert_eq!((LABEL, SECTIONS, SIZE), (8, 5, [17, 21, 21, 20, 22]));
    assert_eq!((LONGEST_SHEET, LONGEST_STREAM, LONGEST_NOTICE), (1571, 2520, 2412));
}

/// Every slot of every section taken. Each record has a byte that may become 4, and is then told apart.
fn full() -> Setup {
    let mut setup = Setup::default();
    for (section, most) in MOST.into_iter().enumerate() {
        let record = |slot| match section {
            TERMS => record(slot, &label(slot), &[1, 1]),
            RANGES => record(slot, &label(slot), &[1, 1, 1]),
            EDGES => record(slot, &label(slot), &[1, 1, 2]),
            SUMS => sum(slot, [9; 11]),
            STATES => state(slot, 1, 15, 0xFF),
            _ => unreachable!("no such section"),
        };
        setup.sections[section] = (0..most).map(record).collect();
    }
    setup
}

#[test]
fn sizes() {
    let mut setup = full();
    let old = setup.sheet();
    for (records, at) in setup.sections.iter_mut().zip([0, 8, 0, 10, 0]) {
        records.iter_mut().for_each(|record| {
            record[1] = b'X';
            record[DESCRIPTION + at] = 4;
        });
    }
    let new = setup.sheet();
    assert_eq!((old.len(), check(&old), check(&new)), (LONGEST_SHEET, Ok(()), Ok(())));
    let mut stream = [0; LONGEST_STREAM];
    assert_eq!(compile(&old, &mut stream), Ok(LONGEST_STREAM));
    assert_eq!(compile(&old, &mut [0; LONGEST_STREAM - 1]), refusal(12, LONGEST_STREAM));
    assert_eq!(read(&stream, &mut [0; LONGEST_SHEET]), Ok(LONGEST_SHEET));
    assert_eq!(read(&stream, &mut [0; LONGEST_SHEET - 1]), refusal(12, LONGEST_SHEET));
    assert_eq!(noticed(&old, &new).len(), LONGEST_NOTICE);
    // one byte more of a sheet, one command more of a stream: what is behind changes nothing
    assert_eq!(check(&[&old[..], &[0]].concat()), refusal(11, LONGEST_SHEET));
    let longer = [&stream[..], &command(0x9E, 0)].concat();
    assert_eq!(read(&longer, &mut [0; LONGEST_SHEET]), refusal(15, LONGEST_STREAM));
    // the full sheet without its last section
    let last = setup.count_at(SECTIONS - 1);
    assert_eq!(check(&old[..last]), refusal(1, last));
}

#[test]
fn sections() {
    let states = vec![state(2, 1, 0, 0), state(3, 1, 0, 0)];
    let sheet = sheet([(RANGES, vec![record(0, "LABEL", &[1, 1, 1])]), (STATES, states)]);
    assert_eq!(section(&sheet, 0), (0, 0, 0));
    assert_eq!(section(&sheet, 1), (0, place(RANGES, 0), SIZE[RANGES]));
    assert_eq!(section(&sheet, 3), (0, 0, 0));
    assert_eq!(section(&sheet, 4), (0, place(STATES, 0) + SIZE[RANGES], 2 * SIZE[STATES]));
    assert_eq!(section(&sheet, SECTIONS as u8), (0, 0, 0));
    assert_eq!(section(&sheet[..place(RANGES, 1) - 1], 1), (1, 0, 0));
    let states_cut = sheet.len() - SIZE[STATES] + 1;
    assert_eq!(section(&sheet[..states_cut], 1), (1, 0, 0), "a fault of the last section empties the others too");
}

#[test]
fn first_fault_wins() {
    let terms = |slots: &[u8]| sheet([(TERMS, slots.iter().map(|&slot| record(slot, "LABEL", &[0, 0])).collect())]);
    for counts in 0..SECTIONS {
        assert_eq!(check(&vec![0; counts]), refusal(1, counts), "too few sections are no sheet");
    }
    assert_eq!(check(&[0; SECTIONS]), Ok(()));
    assert_eq!(check(&[11]), refusal(2, 0));
    assert_eq!(check(&[0, 3]), refusal(2, 1));
    assert_eq!(check(&[1, 200]), refusal(1, 1), "an incomplete record comes before its bad slot");
    assert_eq!(check(&[0; SECTIONS + 1]), refusal(11, SECTIONS));
    assert_eq!(check(&terms(&[10])), refusal(3, place(TERMS, 0)));
    assert_eq!(check(&terms(&[9, 10])), refusal(3, place(TERMS, 1)));
    assert_eq!(check(&terms(&[3, 3])), refusal(4, place(TERMS, 1)));
    assert_eq!(check(&terms(&[3, 2])), refusal(4, place(TERMS, 1)));
    for byte in [0x1F, 0x7F] {
        let mut bad = terms(&[0]);
        bad[place(TERMS, 0) + LABEL] = byte; // the label's last
        assert_eq!(check(&bad), refusal(5, place(TERMS, 0)));
    }
    assert_eq!(check(&edge_sheet([3, 2, 2])), refusal(9, place(EDGES, 0)));
    assert_eq!(check(&edge_sheet([1, 2, 2])), Ok(()));
    let bad = sum(47, [9, 9, 9, 9, 9, 9, 9, 9, 9, 9, 10]);
    assert_eq!(check(&sum_sheet(&[bad])), refusal(10, place(SUMS, 0)));
}
