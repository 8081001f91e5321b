//! Times gathering on wide masks: `cargo bench --offline --bench gather`, after `tools/archive voltamar_c` and
//! `tools/archive gather_walk` at the top of the repository. Over a million random pairs of sample and mask, the mask
//! of sixteen lines or more: nanoseconds a call of the library's gather, of a walk over the 32 lines in Rattle, which
//! is there for this comparison alone, of the same walk, of one without a branch and of a loop over the masked lines in
//! plain Rust and, where the processor has it, of its own instruction. All are compared before they are timed, run in
//! turn, and the best of the rounds counts. Wanted: at most a quarter of the Rattle walk's time, and less than that of
//! the loop. The gate runs it for the comparison.
use plain::make::Random;
use std::hint::black_box;
use std::time::Instant;

const PAIRS: usize = 1_000_000;
const ROUNDS: usize = 40;

#[link(name = "gather_walk", kind = "static")]
extern "C" {
    fn voltamar_gather_walk(sample: u32, mask: u32) -> u32;
}

/// The plain walk: from the highest line down, so that each masked line goes in at bit 0.
fn walk(sample: u32, mask: u32) -> u32 {
    let mut packed = 0;
    for line in (0..32).rev() {
        if mask >> line & 1 == 1 {
            packed = packed << 1 | (sample >> line & 1);
        }
    }
    packed
}

/// The same walk without a branch: each line goes in, and what is there moves up by the mask's line, by one or by none.
fn walk_without_branch(sample: u32, mask: u32) -> u32 {
    let mut packed = 0;
    for line in (0..32).rev() {
        let masked = mask >> line & 1;
        packed = packed << masked | (sample >> line & masked);
    }
    packed
}

/// What the answers of all pairs come to, so that none can be left out.
fn all(pairs: &[(u32, u32)], gather: impl Fn(u32, u32) -> u32) -> u32 {
    pairs.iter().fold(0, |sum, &(sample, mask)| sum.rotate_left(1) ^ gather(sample, mask))
}

#[cfg(target_arch = "x86_64")]
#[target_feature(enable = "bmi2")]
fn all_extracted(pairs: &[(u32, u32)]) -> u32 {
    use std::arch::x86_64::_pext_u32;
    pairs.iter().fold(0, |sum, &(sample, mask)| sum.rotate_left(1) ^ _pext_u32(sample, mask))
}

type Way = (&'static str, fn(&[(u32, u32)]) -> u32);

fn ways() -> Vec<Way> {
    #[allow(unused_mut)]
    let mut ways: Vec<Way> = vec![
        ("gather", |pairs| all(pairs, voltamar::gather)),
        ("walk in Rattle", |pairs| all(pairs, |sample, mask| unsafe { voltamar_gather_walk(sample, mask) })),
        ("walk in Rust", |pairs| all(pairs, walk)),
        ("without branch", |pairs| all(pairs, walk_without_branch)),
        ("loop in Rust", |pairs| all(pairs, plain::gather)),
    ];
    #[cfg(target_arch = "x86_64")]
    if is_x86_feature_detected!("bmi2") {
        ways.push(("instruction", |pairs| unsafe { all_extracted(pairs) }));
    }
    ways
}

fn main() {
    if cfg!(debug_assertions) {
        eprintln!("gather: run it with `cargo bench`, which builds for release");
        std::process::exit(2);
    }
    let mut random = Random(5);
    let pairs: Vec<(u32, u32)> = (0..PAIRS)
        .map(|_| {
            let wide = std::iter::repeat_with(|| random.u32()).find(|mask| mask.count_ones() >= 16);
            let mask = wide.expect("half of all masks are as wide");
            (random.u32(), mask)
        })
        .collect();
    for pair in pairs.chunks(1) {
        let answers: Vec<u32> = ways().iter().map(|way| way.1(pair)).collect();
        assert!(answers.iter().all(|answer| *answer == answers[0]), "{:08X?}: {answers:08X?}", pair[0]);
    }

    let ways = ways();
    let mut best = vec![f64::MAX; ways.len()];
    for _ in 0..ROUNDS {
        for (way, best) in ways.iter().zip(&mut best) {
            let start = Instant::now();
            black_box(way.1(black_box(&pairs)));
            *best = best.min(start.elapsed().as_secs_f64() / PAIRS as f64 * 1e9);
        }
    }
    println!("{PAIRS} random samples, masks of sixteen lines or more, random too; release build");
    println!("{:<16} {:>12} {:>16}", "way", "ns a call", "of the walk");
    for ((name, _), time) in ways.iter().zip(&best) {
        println!("{name:<16} {time:>12.2} {:>16.3}", time / best[1]);
    }
}
