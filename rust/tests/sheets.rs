//! check, section and compile of the proved library against the plain implementation, on random and damaged sheets:
//! the answers, and all the bytes of the buffers.
use plain::make::{self, Random, Setup, Tally};

const SHEETS: usize = 100_000;

fn sheet(random: &mut Random) -> Vec<u8> {
    let taken = random.below(9);
    match random.below(10) {
        0 => make::noise_sheet(random),
        1..=3 => Setup::random(random, taken).sheet(),
        _ => {
            let setup = Setup::random(random, taken);
            make::damaged_sheet(random, &setup)
        }
    }
}

fn pair(refusal: voltamar::Refusal) -> (u8, usize) {
    (refusal.number, refusal.place)
}

fn plain_pair(refusal: plain::Refusal) -> (u8, usize) {
    (refusal.number, refusal.place)
}

fn number<T>(answer: &Result<T, (u8, usize)>) -> u8 {
    answer.as_ref().err().map_or(0, |refusal| refusal.0)
}

// The call as it is: the wrapper does not hand out what is left behind the pointers of a refused call.
extern "C" {
    fn voltamar_section(sheet: *const u8, n: usize, number: u8, start: *mut usize, length: *mut usize) -> u8;
}

#[test]
fn check_and_section_agree() {
    let mut random = Random(0x9E37_79B9_7F4A_7C15);
    let (mut proved, mut plain) = (Tally::default(), Tally::default());
    for _ in 0..SHEETS {
        let sheet = sheet(&mut random);
        let got = voltamar::check(&sheet).map_err(pair);
        let want = plain::check(&sheet).map_err(plain_pair);
        assert_eq!(got, want, "sheet {sheet:02X?}");
        proved.count(number(&got));
        plain.count(number(&want));
        for section in (0..=plain::SECTIONS as u8).chain([random.u8()]) {
            let (mut start, mut length) = (usize::MAX, usize::MAX);
            // SAFETY: the sheet's own pointer and length, and two locals.
            let answer = unsafe { voltamar_section(sheet.as_ptr(), sheet.len(), section, &mut start, &mut length) };
            let want = plain::section(&sheet, section);
            assert_eq!((answer, start, length), want, "section {section} of {sheet:02X?}");
            let part = voltamar::section(&sheet, section).map_err(pair);
            assert_eq!(part, got.map(|()| &sheet[want.1..][..want.2]));
        }
    }
    proved.expect(&[1..=11, 18..=19], SHEETS / 5, SHEETS / 1000);
    plain.expect(&[1..=11, 18..=19], SHEETS / 5, SHEETS / 1000);
}

#[test]
fn compile_agrees() {
    let mut random = Random(0xD1B5_4A32_D192_ED03);
    let (mut proved, mut plain) = (Tally::default(), Tally::default());
    for _ in 0..SHEETS {
        let sheet = sheet(&mut random);
        let needed = plain::compile(&sheet, &mut [0; plain::LONGEST_STREAM]).unwrap_or(100);
        let room = random.room(needed);
        let noise = random.bytes(room);
        let (mut a, mut b) = (noise.clone(), noise);
        let got = voltamar::compile(&sheet, &mut a).map_err(pair);
        let want = plain::compile(&sheet, &mut b).map_err(plain_pair);
        assert_eq!(got, want, "room {room}, sheet {sheet:02X?}");
        assert!(a == b, "the buffer after room {room}, sheet {sheet:02X?}");
        proved.count(number(&got));
        plain.count(number(&want));
    }
    proved.expect(&[1..=12, 18..=19], SHEETS / 10, SHEETS / 1000);
    plain.expect(&[1..=12, 18..=19], SHEETS / 10, SHEETS / 1000);
}

/// Any two records of a full section with one label, and then with labels that differ in one byte.
#[test]
fn every_two_labels_agree() {
    let mut random = Random(0xC2B2_AE3D_27D4_EB4F);
    let setup = Setup::random(&mut random, 8);
    for (section, size) in plain::SIZE.into_iter().enumerate() {
        for later in 0..setup.sections[section].len() {
            for earlier in 0..later {
                let mut setup = setup.clone();
                let label = setup.sections[section][earlier][1..plain::DESCRIPTION].to_vec();
                setup.sections[section][later][1..plain::DESCRIPTION].copy_from_slice(&label);
                let place = setup.count_at(section) + 1 + later * size;
                let mut sheet = setup.sheet();
                assert_eq!(voltamar::check(&sheet).map_err(pair), Err((19, place)), "sheet {sheet:02X?}");
                assert_eq!(plain::check(&sheet).map_err(plain_pair), Err((19, place)), "sheet {sheet:02X?}");
                let byte = &mut sheet[place + 1 + random.below(plain::LABEL)];
                *byte = if *byte == 0x7E { 0x7D } else { *byte + 1 };
                let want = plain::check(&sheet).map_err(plain_pair);
                assert_eq!(voltamar::check(&sheet).map_err(pair), want, "sheet {sheet:02X?}");
            }
        }
    }
}
