//! The compiler of the plain implementation gives what the second program (second/) sends, on every stored case, and
//! reading that back gives the sheet with the reader's labels and targets cut to their masks.
use plain::make::read_back;
use plain::{check, compile, read, LABEL, LONGEST_STREAM};

fn length(data: &[u8], at: usize) -> usize {
    usize::from(u16::from_le_bytes([data[at], data[at + 1]]))
}

#[test]
fn compile_sends_what_the_second_program_sends() {
    let name = concat!(env!("CARGO_MANIFEST_DIR"), "/../../crates/agreement/data/cases");
    let data = std::fs::read(name).expect(name);
    let (mut at, mut cases) = (0, 0);
    while length(&data, at) != 0xFFFF {
        let sheet = &data[at + 2..][..length(&data, at)];
        at += 2 + sheet.len();
        let stream = &data[at + 2..][..length(&data, at)];
        at += 2 + stream.len();

        assert_eq!(check(sheet), Ok(()), "case {cases}");
        let mut out = vec![0x77; LONGEST_STREAM];
        assert_eq!(compile(sheet, &mut out), Ok(stream.len()), "case {cases}");
        assert!(&out[..stream.len()] == stream, "case {cases}");
        assert!(out[stream.len()..].iter().all(|&byte| byte == 0x77), "case {cases}");
        let mut back = vec![0; sheet.len()];
        assert_eq!(read(stream, &mut back), Ok(sheet.len()), "case {cases}");
        assert!(back == read_back(sheet), "case {cases}");
        cases += 1;
    }
    assert_eq!(at + 2, data.len(), "nothing follows the end mark");
    assert_eq!(cases, 569 + LABEL, "one for each byte of a label, and 569 others");
}
