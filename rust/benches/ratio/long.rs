//! Calls on sheets, streams and samples. Output buffers are made once and are not cleared between calls, on either side
//! (plain's read, notice and bench write to a page of their own first, and copy).
use crate::programme;
use crate::timing::{compare, Plan, Row};
use plain::make::{self, Random, Setup};
use plain::{programmes, MOST_SAMPLES};
use std::hint::black_box;

const PLAN: Plan = Plan { turns: 20, inputs: 100, things: 1 };

const DONE: &str = "accepted, with room";

/// The length.
fn number<E: std::fmt::Debug>(answer: Result<usize, E>) -> u64 {
    answer.expect(DONE) as u64
}

/// From half full to full, where all slots are taken; the labels of a section all differ, some in one byte alone.
fn setup(random: &mut Random) -> Setup {
    let taken = 4 + random.below(5);
    Setup::random(random, taken)
}

fn sheets(random: &mut Random) -> Vec<Row> {
    let (mut a, mut b) = (vec![0; plain::LONGEST_STREAM], vec![0; plain::LONGEST_STREAM]);
    vec![
        compare(
            "check",
            PLAN,
            || setup(random).sheet(),
            |sheet| number(voltamar::check(sheet).map(|()| 0)),
            |sheet| number(plain::check(sheet).map(|()| 0)),
        ),
        compare(
            "compile",
            PLAN,
            || setup(random).sheet(),
            |sheet| number(voltamar::compile(sheet, black_box(&mut a))),
            |sheet| number(plain::compile(sheet, black_box(&mut b))),
        ),
        compare(
            "read",
            PLAN,
            || make::stream(&setup(random).sheet()),
            |stream| number(voltamar::read(stream, black_box(&mut a))),
            |stream| number(plain::read(stream, black_box(&mut b))),
        ),
    ]
}

/// The second sheet of a pair is near the first.
fn notices(random: &mut Random) -> Row {
    let (mut a, mut b) = (vec![0; plain::LONGEST_NOTICE], vec![0; plain::LONGEST_NOTICE]);
    let pair = || {
        let old = setup(random);
        (old.sheet(), old.near(random).sheet())
    };
    compare(
        "notice",
        PLAN,
        pair,
        |(old, new)| number(voltamar::notice(old, new, black_box(&mut a))),
        |(old, new)| number(plain::notice(old, new, black_box(&mut b))),
    )
}

/// A full sheet whose run does not end, with as many random samples as a call takes.
fn endless(random: &mut Random) -> (Vec<u8>, Vec<u32>) {
    (programmes::endless(random).sheet(), (0..MOST_SAMPLES).map(|_| random.u32()).collect())
}

/// Stops unless the bench by the plain rules takes the same samples as the library.
fn see(random: &mut Random) {
    for _ in 0..20 {
        let (sheet, samples) = endless(random);
        let (mut a, mut b) = (vec![0; MOST_SAMPLES], vec![0; MOST_SAMPLES]);
        let taken = voltamar::bench(&sheet, &samples, voltamar::Run::default(), &mut a).expect(DONE).0;
        let also = programme::bench(&sheet, &samples, &mut b).expect(DONE).0;
        assert!(a[..taken] == b[..also], "samples taken by the plain rules");
    }
}

/// Beside plain through the chain words, as the rules have it, and beside plain by the plain rules.
fn benches(random: &mut Random) -> Vec<Row> {
    see(random);
    let plan = Plan { turns: 10, inputs: 4, things: MOST_SAMPLES };
    let (mut a, mut b) = (vec![0; MOST_SAMPLES], vec![0; MOST_SAMPLES]);
    let mut proved = |(sheet, samples): &(Vec<u8>, Vec<u32>)| {
        let (taken, run) = voltamar::bench(sheet, samples, voltamar::Run::default(), black_box(&mut a)).expect(DONE);
        stands(taken, run.state, run.count, run.ended)
    };
    let by_words = |(sheet, samples): &(Vec<u8>, Vec<u32>)| {
        let (taken, run) = plain::bench(sheet, samples, plain::Run::default(), black_box(&mut b)).expect(DONE);
        stands(taken, run.state, run.count, run.ended)
    };
    let first = compare("bench, by words", plan, || endless(random), &mut proved, by_words);
    let by_rules = |(sheet, samples): &(Vec<u8>, Vec<u32>)| {
        let (taken, run) = programme::bench(sheet, samples, black_box(&mut b)).expect(DONE);
        stands(taken, run.state, run.count, run.ended)
    };
    let second = compare("bench, by rules", plan, || endless(random), &mut proved, by_rules);
    vec![first, second]
}

/// How many samples were taken, and where the run stands, as one number.
fn stands(taken: usize, state: u32, count: u32, ended: bool) -> u64 {
    assert!(!ended);
    taken as u64 | u64::from(state) << 16 | u64::from(count) << 24
}

pub fn rows(random: &mut Random) -> Vec<Row> {
    let mut rows = sheets(random);
    rows.push(notices(random));
    rows.extend(benches(random));
    rows
}
