//! Times telling sums apart where it takes longest: `cargo bench --offline --bench sums`, after
//! `tools/archive voltamar_c` at the top of the repository. Two full sheets have 48 sums that all differ and all match
//! alike, which a scan of the 65,536 patterns sees for each before anything is timed. Then the microseconds of the
//! library's notice of the two sheets, of its 48 calls of sum_telling, of the same by halves in plain Rust, and of the
//! scan, which makes the words once for each two sums and would end at the first pattern that tells. All run in turn,
//! and the best of the rounds counts. The library must be at least 50 times as fast as the scan, with the whole notice
//! too: below that the bench fails.
use plain::make::{self, Random, Setup};
use std::hint::black_box;
use std::time::Instant;

const ROUNDS: usize = 20;
const WANTED: f64 = 50.0;

struct Pair {
    old: Vec<u8>,
    new: Vec<u8>,
    sums: Vec<([u8; 11], [u8; 11])>,
}

impl Pair {
    fn new(random: &mut Random) -> Pair {
        let sums: Vec<_> = (0..48).map(|slot| alike(random, slot % make::ALIKE_WAYS)).collect();
        let mut old = Setup::random(random, 8);
        let mut new = old.clone();
        for (slot, sum) in sums.iter().enumerate() {
            old.sections[3][slot][plain::DESCRIPTION..].copy_from_slice(&sum.0);
            new.sections[3][slot][plain::DESCRIPTION..].copy_from_slice(&sum.1);
        }
        Pair { old: old.sheet(), new: new.sheet(), sums }
    }

    /// Stops unless the sheets are full and accepted, all the sums differ and match alike, and the notice says so.
    fn see(&self) {
        for sheet in [&self.old, &self.new] {
            assert_eq!((voltamar::check(sheet), sheet.len()), (Ok(()), voltamar::LONGEST_SHEET));
        }
        for (old, new) in &self.sums {
            assert_ne!(old, new);
            assert_eq!(plain::scan_telling_sum(old, new), None, "{old:?} {new:?}");
        }
        let mut out = [0; voltamar::LONGEST_NOTICE];
        let length = voltamar::notice(&self.old, &self.new, &mut out).expect("accepted, with room");
        let words: String = (0..48).map(|slot| format!("SUMS {slot:02} WORD\n")).collect();
        assert_eq!(String::from_utf8_lossy(&out[..length]), words);
    }

    /// How many of the sums are told apart.
    fn told<T: PartialEq>(&self, telling: impl Fn(&[u8; 11], &[u8; 11]) -> T, none: T) -> usize {
        self.sums.iter().filter(|(old, new)| telling(black_box(old), black_box(new)) != none).count()
    }
}

/// Two sums that match alike. Those whose final operation asks for nothing have the one source of each pair for the
/// other, under mids that ask for exactly one pair.
fn alike(random: &mut Random, way: usize) -> ([u8; 11], [u8; 11]) {
    let (mut old, mut new) = make::alike_sums(random, way);
    if way == 0 {
        old[..10].copy_from_slice(&[8, 8, 8, 8, 8, 8, 8, 8, 6, 7]);
        new[..10].copy_from_slice(&[9, 9, 9, 9, 9, 9, 9, 9, 7, 6]);
    }
    (old, new)
}

type Way = (&'static str, fn(&Pair) -> usize);

/// The library's ways first, the scan last.
const WAYS: [Way; 4] = [
    ("notice", |pair| {
        let mut out = [0; voltamar::LONGEST_NOTICE];
        voltamar::notice(&pair.old, &pair.new, black_box(&mut out)).unwrap_or(0)
    }),
    ("sum_telling", |pair| pair.told(|old, new| voltamar::sum_telling(old, new), Ok(None))),
    ("by halves", |pair| pair.told(plain::telling_sum, None)),
    ("scan", |pair| pair.told(plain::scan_telling_sum, None)),
];

fn main() {
    if cfg!(debug_assertions) {
        eprintln!("sums: run it with `cargo bench`, which builds for release");
        std::process::exit(2);
    }
    let pair = Pair::new(&mut Random(6));
    pair.see();
    assert!(WAYS[1..].iter().all(|way| way.1(&pair) == 0));

    let mut best = [f64::MAX; WAYS.len()];
    for _ in 0..ROUNDS {
        for (way, best) in WAYS.iter().zip(&mut best) {
            black_box(way.1(black_box(&pair))); // the scan before it had the caches
            let start = Instant::now();
            black_box(way.1(black_box(&pair)));
            *best = best.min(start.elapsed().as_secs_f64() * 1e6);
        }
    }
    println!("two full sheets, 48 sums that differ and match alike; release build");
    println!("{:<16} {:>12} {:>16}", "way", "microseconds", "scan / way");
    for ((name, _), time) in WAYS.iter().zip(best) {
        println!("{name:<16} {time:>12.2} {:>16.1}", best[3] / time);
    }
    if best[..2].iter().any(|time| best[3] / time < WANTED) {
        eprintln!("sums: the library is not {WANTED} times as fast as the scan");
        std::process::exit(1);
    }
}
