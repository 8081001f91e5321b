//! notice of the proved library against the plain implementation, on pairs of sheets that are near one another, and on
//! damaged ones. All is compared byte by byte but what the rules leave open (the samples on an ALTR line of a range or
//! an edge, the pattern on that of a sum): of that it is seen that it tells the two apart.
use plain::make::{self, Random, Setup, Tally};

const PAIRS: usize = 100_000;

/// Which sheet a refusal is of (0 neither, 1 old, 2 new), its number and place.
type Refused = (usize, u8, usize);

fn proved(answer: Result<usize, voltamar::NoticeRefusal>) -> Result<usize, Refused> {
    answer.map_err(|refusal| match refusal {
        voltamar::NoticeRefusal::Old(r) => (1, r.number, r.place),
        voltamar::NoticeRefusal::New(r) => (2, r.number, r.place),
        voltamar::NoticeRefusal::Short { needed } => (0, 12, needed),
    })
}

fn plain(answer: Result<usize, plain::NoticeRefusal>) -> Result<usize, Refused> {
    answer.map_err(|refusal| match refusal {
        plain::NoticeRefusal::Old(r) => (1, r.number, r.place),
        plain::NoticeRefusal::New(r) => (2, r.number, r.place),
        plain::NoticeRefusal::Short { needed } => (0, 12, needed),
    })
}

/// Sound eight times in ten.
fn bytes(random: &mut Random, setup: &Setup) -> Vec<u8> {
    match random.below(10) {
        0 => make::damaged_sheet(random, setup),
        1 if random.one_in(4) => make::noise_sheet(random),
        _ => setup.sheet(),
    }
}

#[test]
fn notice_agrees() {
    let mut random = Random(0xBF58_476D_1CE4_E5B9);
    // by which sheet is refused: neither (done, or 12), old, new
    let (mut proved_tally, mut plain_tally): ([Tally; 3], [Tally; 3]) = Default::default();
    for round in 0..PAIRS {
        let taken = random.below(9);
        let setup = Setup::random(&mut random, taken);
        let next = if random.one_in(8) { Setup::random(&mut random, taken) } else { setup.near(&mut random) };
        let (old, new) = (bytes(&mut random, &setup), bytes(&mut random, &next));
        let needed = plain::notice(&old, &new, &mut [0; plain::LONGEST_NOTICE]).unwrap_or(100);
        let room = random.room(needed);
        let noise = random.bytes(room);
        let (mut a, mut b) = (noise.clone(), noise.clone());
        let got = proved(voltamar::notice(&old, &new, &mut a));
        let want = plain(plain::notice(&old, &new, &mut b));
        assert_eq!(got, want, "room {room}, old {old:02X?}, new {new:02X?}");
        match got {
            Ok(length) => {
                // to try all patterns takes long where none tells
                let tell_sums = if round % 50 == 0 { plain::scan_telling_sum } else { plain::telling_sum };
                if let Err(wrong) = plain::notice_agrees(&old, &new, &a[..length], tell_sums) {
                    panic!("{wrong}; old {old:02X?}, new {new:02X?}");
                }
                assert!(a[length..] == noise[length..], "bytes beyond the notice, old {old:02X?}, new {new:02X?}");
                proved_tally[0].count(0);
                plain_tally[0].count(0);
            }
            Err((which, number, _)) => {
                assert!(a == noise, "a refused call wrote, old {old:02X?}, new {new:02X?}");
                proved_tally[which].count(number);
                plain_tally[want.unwrap_err().0].count(want.unwrap_err().1);
            }
        }
    }
    for tally in [proved_tally, plain_tally] {
        tally[0].expect(&[12..=12], PAIRS / 5, PAIRS / 10);
        tally[1].expect(&[1..=11, 18..=19], 0, PAIRS / 20_000);
        tally[2].expect(&[1..=11, 18..=19], 0, PAIRS / 20_000);
    }
}

#[test]
fn the_pair_given_whole() {
    let examples = concat!(env!("CARGO_MANIFEST_DIR"), "/../examples/");
    let load = |name: &str| std::fs::read(format!("{examples}{name}")).expect(name);
    let mut out = [0; 60];
    assert_eq!(voltamar::notice(&load("old.sheet"), &load("new.sheet"), &mut out), Ok(60));
    assert_eq!(out, *b"TERM 00 NAME\nTERM 01 ALTR 00000004\nTERM 02 NEW\nRANG 00 GONE\n");
}

/// Every two edges that ask on two lines alone, each line for one of the seven: only the same ones have no line.
#[test]
fn every_two_wishes_of_two_lines() {
    // a wish is 1 for rise, 2 for fall, 4 for neither, added up
    let sheet = |both: u32| {
        let (lower, upper) = (both % 7, both / 7);
        let lines = |event: u32| (lower >> event & 1) << 1 | (upper >> event & 1) << 30;
        let edge = [0, 1, 2].map(|event| lines(event).to_le_bytes()).concat();
        make::one_section(2, vec![make::record(0, "TWOLINES", &edge)])
    };
    for all in 0..49 * 49 {
        let (old, new) = (sheet(all / 49), sheet(all % 49));
        let mut out = [0; 31];
        let length = voltamar::notice(&old, &new, &mut out).expect("accepted, with room");
        assert_eq!(length, if old == new { 0 } else { 31 }, "old {old:02X?}, new {new:02X?}");
        let agrees = plain::notice_agrees(&old, &new, &out[..length], plain::telling_sum);
        assert_eq!(agrees, Ok(()), "old {old:02X?}, new {new:02X?}");
    }
}

/// A sheet with every slot taken, the descriptions of a section all the same, its labels the letter and the slot.
fn full(letter: char, descriptions: [Vec<u8>; plain::SECTIONS]) -> Vec<u8> {
    let mut sheet = Vec::new();
    for (most, description) in plain::MOST.into_iter().zip(descriptions) {
        sheet.push(most);
        for slot in 0..most {
            sheet.extend(make::record(slot, &format!("{letter}{slot:02}"), &description));
        }
    }
    sheet
}

/// Every label differs, and every description is told apart.
#[test]
fn the_longest_notice() {
    let numbers = |numbers: &[u32]| numbers.iter().flat_map(|number| number.to_le_bytes()).collect::<Vec<u8>>();
    let state = |number| [numbers(&[number]), vec![0; 9]].concat();
    let old = full('A', [numbers(&[0, 1]), numbers(&[1, 1, 1]), numbers(&[1, 0, 0]), vec![0; 11], state(0)]);
    let new = full('B', [numbers(&[1, 1]), numbers(&[1, 1, 2]), numbers(&[0, 1, 0]), vec![1; 11], state(1)]);
    let mut out = [0; voltamar::LONGEST_NOTICE];
    let short = voltamar::notice(&old, &new, &mut out[1..]);
    assert_eq!(short, Err(voltamar::NoticeRefusal::Short { needed: out.len() }));
    assert_eq!(voltamar::notice(&old, &new, &mut out), Ok(out.len()));
    assert_eq!(plain::notice_agrees(&old, &new, &out, plain::scan_telling_sum), Ok(()));
}
