//! Inputs to compare the bench on: sheets whose runs move, samples, and runs to hand in.
use crate::make::{Random, Setup};
use crate::{Run, DESCRIPTION, MOST_SAMPLES};

/// An accepted sheet whose runs move among its first `states` states: those have most of their sums and records, the
/// others few. Some sheets have most detectors, some few.
pub fn programme(random: &mut Random, states: u8) -> Setup {
    let mut setup = Setup::random(random, 8);
    let detectors = random.pick(&[1, 7, 7, 8]);
    for (section, records) in setup.sections.iter_mut().enumerate() {
        records.retain(|record| {
            let of = |state| if state < states { 7 } else { 1 };
            let eighths = [detectors, detectors, detectors, of(record[0] / 3), of(record[0])][section];
            random.below(8) < eighths
        });
    }
    enliven(random, &mut setup, states);
    setup
}

/// Where a state's record has its number.
const NUMBER: std::ops::Range<usize> = DESCRIPTION..DESCRIPTION + 4;

/// A programme with every slot taken whose run does not end: no state has the flag, and the last one's number is more
/// than the samples of a call.
pub fn endless(random: &mut Random) -> Setup {
    let mut setup = Setup::random(random, 8);
    enliven(random, &mut setup, 16);
    for state in &mut setup.sections[4] {
        *state.last_mut().expect("a state's last byte is its last flag") = 0;
    }
    setup.sections[4][15][NUMBER].copy_from_slice(&(MOST_SAMPLES as u32 + 1).to_le_bytes());
    setup
}

/// Gives most records a description by which both answers come often, and states that lead to the first `states`.
fn enliven(random: &mut Random, setup: &mut Setup, states: u8) {
    for (section, records) in setup.sections.iter_mut().enumerate() {
        for record in records {
            if !random.one_in(12) {
                record.truncate(DESCRIPTION);
                record.extend(lively(random, section, states));
            }
        }
    }
}

/// A description that few lines or few sources decide; of a state, one with a small number.
fn lively(random: &mut Random, section: usize, states: u8) -> Vec<u8> {
    match section {
        0 => numbers([random.u32(), few_lines(random)]),
        1 => {
            let mask = few_lines(random) | 1 << random.below(32);
            let biggest = (1 << mask.count_ones()) - 1;
            let lower = 1 + random.below(biggest);
            numbers([lower as u32, (lower + random.below(biggest - lower + 1)) as u32, mask])
        }
        2 => {
            let (rise, fall) = (few_lines(random), few_lines(random));
            let neither = match random.below(4) {
                0 => few_lines(random),
                1 => random.pick(&[rise, fall]), // a line that stays or rises, or stays or falls
                _ => 0,
            };
            numbers([rise, fall, neither & !(rise & fall)])
        }
        3 => lively_sum(random),
        4 => lively_state(random, states),
        _ => unreachable!("no such section"),
    }
}

fn numbers<const N: usize>(numbers: [u32; N]) -> Vec<u8> {
    numbers.map(u32::to_le_bytes).concat()
}

/// One to three lines.
fn few_lines(random: &mut Random) -> u32 {
    (0..1 + random.below(3)).fold(0, |lines, _| lines | 1 << random.below(32))
}

/// One to three pairs that say something, by OR to the end; or any operation at the end.
fn lively_sum(random: &mut Random) -> Vec<u8> {
    const NOP: u8 = 0;
    const OR: u8 = 4;
    let mut operations = [[NOP; 8].as_slice(), &[OR; 3]].concat();
    for _ in 0..1 + random.below(3) {
        operations[random.below(8)] = 1 + random.below(9) as u8;
    }
    if random.one_in(4) {
        operations[8 + random.below(3)] = random.below(10) as u8;
    }
    operations
}

fn lively_state(random: &mut Random, states: u8) -> Vec<u8> {
    let mut state = numbers([random.pick(&[0, 1, 1, 2, 3, 7])]);
    let most = if random.one_in(8) { 16 } else { states.into() };
    state.push(random.below(most) as u8);
    state.extend((0..7).map(|_| random.below(2) as u8));
    state.push(random.one_in(12).into());
    state
}

/// Samples of one sort: any numbers, a few that come again and again, or each one line off the one before.
pub fn samples(random: &mut Random, count: usize) -> Vec<u32> {
    let sort = random.below(3);
    let values: Vec<u32> = (0..2 + random.below(6)).map(|_| random.u32()).collect();
    let mut before = random.u32();
    let mut sample = || {
        before = match sort {
            0 => random.u32(),
            1 => random.pick(&values),
            _ => before ^ 1 << random.below(32),
        };
        before
    };
    (0..count).map(|_| sample()).collect()
}

/// How often the hit sum of a state must match.
pub fn number(setup: &Setup, state: u32) -> u32 {
    let record = setup.sections[4].iter().find(|record| u32::from(record[0]) == state);
    record.map_or(1, |record| u32::from_le_bytes(record[NUMBER].try_into().expect("four bytes")).max(1))
}

/// A run that the programme takes: fresh, or any.
pub fn sound_run(random: &mut Random, setup: &Setup) -> Run {
    if random.one_in(2) {
        return Run::default();
    }
    let state = random.below(16) as u32;
    let count = match number(setup, state) {
        number if random.one_in(2) => number - 1,
        number => random.below(number as usize) as u32,
    };
    let earlier = random.one_in(2).then(|| random.u32());
    Run { state, count, earlier, ended: random.one_in(8) }
}

/// A run that the programme does not take.
pub fn bad_run(random: &mut Random, setup: &Setup) -> Run {
    let mut run = sound_run(random, setup);
    if random.one_in(2) {
        run.state = random.pick(&[16, 17, 0x8000_0000, u32::MAX]);
    } else {
        let number = number(setup, run.state);
        run.count = random.pick(&[number, number + 1, u32::MAX]);
    }
    run
}

/// Words that are no run: another count of them, a flag above 1, or an earlier word that is not there.
pub fn no_run(random: &mut Random, run: Run) -> Vec<u32> {
    let mut words = run.words().to_vec();
    match random.below(4) {
        0 => words.resize(random.pick(&[0, 1, 4, 6, 9]), 0),
        1 => words[2] = random.pick(&[2, 3, 0x100, u32::MAX]),
        2 => words[4] = random.pick(&[2, 3, 0x8000_0000, u32::MAX]),
        _ => (words[2], words[3]) = (0, 1 + random.below(1000) as u32),
    }
    words
}
