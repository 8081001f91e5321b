//! What is stored in examples/ is what the plain implementation makes.
use plain::make::padded;
use plain::{bench, Run, DESCRIPTION, SIZE};

fn stored(name: &str) -> Vec<u8> {
    std::fs::read(format!("{}/../../examples/{name}", env!("CARGO_MANIFEST_DIR"))).expect(name)
}

/// A record of a section, by how many there are before it.
fn record(sheet: &[u8], section: usize, which: usize) -> &[u8] {
    let start = plain::section(sheet, section as u8).1;
    &sheet[start + which * SIZE[section]..][..SIZE[section]]
}

#[test]
fn examples_are_as_made() {
    let files = plain::examples::files();
    for (name, bytes) in &files {
        let stored = stored(name);
        assert!(stored == *bytes, "examples/{name} is not what the program makes");
    }
    let bytes = |name: &str| &files.iter().find(|file| file.0 == name).expect(name).1;
    assert_eq!(bytes("old-new.notice"), b"TERM 00 NAME\nTERM 01 ALTR 00000004\nTERM 02 NEW\nRANG 00 GONE\n");
    assert_eq!(bytes("old-new.notice").len(), 60);
    for (name, length) in [("old.sheet", 60), ("new.sheet", 56), ("lift.sheet", 570), ("lift-revised.sheet", 569)] {
        assert_eq!((plain::check(bytes(name)), bytes(name).len()), (Ok(()), length), "{name}");
    }
    // what is read back is a sheet again, with the reader's labels
    for name in ["old", "new", "lift", "lift-revised"] {
        let back = bytes(&format!("{name}.back"));
        assert_eq!((plain::check(back), back.len()), (Ok(()), bytes(&format!("{name}.sheet")).len()), "{name}");
    }
    let back = bytes("lift.back");
    for (section, which, label) in
        [(0, 0, "T00"), (0, 8, "T09"), (1, 1, "R01"), (2, 0, "E00"), (3, 11, "S11"), (4, 3, "Q03")]
    {
        assert_eq!(&record(back, section, which)[1..DESCRIPTION], padded(label));
    }
    // range 0 without term 3, the only other source that the sum asks for
    let notice = String::from_utf8(bytes("lift-revised.notice").clone()).expect("text");
    assert!(notice.contains("\nSUMS 08 ALTR 0400\n"));
    assert!(notice.ends_with("STAT 01 NAME\nSTAT 02 ALTR\nSTAT 03 GONE\nSTAT 04 NEW\n"));
    let states = concat!(
        " 481  states: 4\n",
        " 482  slot 0 \"LOCKED  \" number 00000003 else 0 flags clear1 clear2 start1 start2\n",
        " 504  slot 1 \"MOVING  \" number 00000001 else 0 flags none\n",
        " 526  slot 2 \"FAULT   \" number 00000001 else 0 flags stop1 stop2 trigger\n",
        " 548  slot 3 \"STOPPED \" number 00000064 else 3 flags last\n",
    );
    assert!(bytes("lift.sheet.txt").ends_with(states.as_bytes()));
    assert!(
        bytes("lift.commands.txt").starts_with(b"   0  9E 00 00 00 00  select 00\n   5  9F 03 00 00 3C    3C000003\n")
    );
}

/// The landing door is line 5. The revised edge asks for it to fall or to stay: two samples in which no line moves.
#[test]
fn the_revised_edge_is_told_apart() {
    let (lift, revised, notice) = (stored("lift.sheet"), stored("lift-revised.sheet"), stored("lift-revised.notice"));
    let text = String::from_utf8_lossy(&notice);
    assert!(text.contains("\nEDGE 00 ALTR 00000000 00000000\nEDGE 01 NAME\n"), "{text}");
    assert_eq!(plain::notice_agrees(&lift, &revised, &notice, plain::scan_telling_sum), Ok(()));
    let edge = |sheet: &[u8]| words(&record(sheet, 2, 0)[DESCRIPTION..]);
    assert_eq!((edge(&lift), edge(&revised)), (vec![0x40, 0x30, 0], vec![0x40, 0x30, 0x20]));
}

fn words(bytes: &[u8]) -> Vec<u32> {
    assert_eq!(bytes.len() % 4, 0);
    bytes.chunks(4).map(|four| u32::from_le_bytes(four.try_into().expect("four bytes"))).collect()
}

#[test]
fn the_lift_takes_what_is_stored() {
    let (samples, taken) = (words(&stored("lift.words")), words(&stored("lift.taken")));
    assert_eq!((samples.len(), taken.len()), (162, 27));
    let mut out = [0; 27];
    let (length, run) = bench(&stored("lift.sheet"), &samples, Run::default(), &mut out).expect("accepted, with room");
    assert_eq!((length, &out[..]), (27, &taken[..]));
    assert_eq!(run, Run { state: 3, count: 0, earlier: Some(samples[159]), ended: true });
}

/// The rows of the page's tables: sample, word, what happens, hits, matches, then, taken.
fn rows(page: &str) -> Vec<Vec<&str>> {
    let rows = page.lines().filter(|line| line.starts_with("| ") && line.as_bytes()[2].is_ascii_digit());
    rows.map(|row| row.trim_matches('|').split('|').map(str::trim).collect()).collect()
}

/// What the page tells of each sample, or of some in a row: its word, state and count after it, whether it is taken.
#[test]
fn the_page_tells_what_the_lift_takes() {
    let (sheet, samples) = (stored("lift.sheet"), words(&stored("lift.words")));
    let page = String::from_utf8(stored("lift-words.md")).expect("text");
    let (mut at, mut run) = (0, Run::default());
    for row in rows(&page) {
        let last = row[0].rsplit(' ').next().and_then(|last| last.parse().ok()).expect("a sample's number");
        assert_eq!(row[0], if at == last { format!("{at}") } else { format!("{at} to {last}") });
        assert_eq!(row[1], format!("{:08X}", samples[at]));
        assert_eq!(row[5].ends_with(": not looked at"), run.ended);
        for &sample in &samples[at..=last] {
            let (taken, next) = bench(&sheet, &[sample], run, &mut [0]).expect("accepted, with room");
            assert_eq!(row[6], ["no", "taken"][taken], "samples {}", row[0]);
            assert_eq!(row[4].ends_with("CAPT"), taken == 1, "samples {}", row[0]);
            assert_eq!(row[5].ends_with("the run ends"), next.ended && !run.ended, "samples {}", row[0]);
            run = next;
        }
        let label = &record(&sheet, 4, run.state as usize)[1..DESCRIPTION];
        let then = format!("{} {}: ", String::from_utf8_lossy(label).trim_end(), run.count);
        assert!(row[5].starts_with(&then), "samples {}: {then}", row[0]);
        at = last + 1;
    }
    assert_eq!(at, samples.len(), "every sample has its row");
}
