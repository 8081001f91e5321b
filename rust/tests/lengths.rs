//! The greatest lengths: those of the header, of the wrapper and of the plain implementation are the same, and the
//! library needs just as much.
use plain::make::{Random, Setup};
use voltamar::{LONGEST_NOTICE, LONGEST_SHEET, LONGEST_STREAM};

/// A number that the C header defines.
fn defined(name: &str) -> usize {
    let header = include_str!("../../include/voltamar.h");
    let line = header.lines().find_map(|line| line.strip_prefix("#define ")?.strip_prefix(name)?.strip_prefix(' '));
    line.and_then(|rest| rest.split_whitespace().next()?.parse().ok()).expect(name)
}

#[test]
fn the_headers_lengths() {
    for (name, wrapper, plain) in [
        ("VOLTAMAR_LONGEST_SHEET", LONGEST_SHEET, plain::LONGEST_SHEET),
        ("VOLTAMAR_LONGEST_STREAM", LONGEST_STREAM, plain::LONGEST_STREAM),
        ("VOLTAMAR_LONGEST_NOTICE", LONGEST_NOTICE, plain::LONGEST_NOTICE),
        ("VOLTAMAR_MOST_SAMPLES", voltamar::MOST_SAMPLES, plain::MOST_SAMPLES),
    ] {
        assert_eq!((wrapper, plain), (defined(name), defined(name)), "{name}");
    }
    assert_eq!((voltamar::LABEL, voltamar::SECTIONS), (plain::LABEL, plain::SECTIONS));
}

/// tests/pairs.rs has the longest notice.
#[test]
fn a_full_sheet_and_its_commands() {
    let sheet = Setup::random(&mut Random(17), 8).sheet();
    assert_eq!((sheet.len(), voltamar::check(&sheet)), (LONGEST_SHEET, Ok(())));
    let mut commands = [0; LONGEST_STREAM];
    let short = voltamar::Refusal { number: 12, place: LONGEST_STREAM };
    assert_eq!(voltamar::compile(&sheet, &mut commands[1..]), Err(short));
    assert_eq!(voltamar::compile(&sheet, &mut commands), Ok(LONGEST_STREAM));
    let mut back = [0; LONGEST_SHEET];
    let short = voltamar::Refusal { number: 12, place: LONGEST_SHEET };
    assert_eq!(voltamar::read(&commands, &mut back[1..]), Err(short));
    assert_eq!(voltamar::read(&commands, &mut back), Ok(LONGEST_SHEET));
}
