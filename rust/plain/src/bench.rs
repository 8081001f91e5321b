//! The bench: a sheet's programme run over samples, through the chain words that are sent for its records.
use crate::sheet::{parts, state, three, two, DESCRIPTION, SECTIONS, SIZE};
use crate::{edge_words, range_words, run_edge, run_range, run_sum, run_term, state_word, sum_words, term_words};
use crate::{refused, Refusal};

pub const MOST_SAMPLES: usize = 4096;

/// What one call hands on to the next; the default is a fresh run.
#[derive(Clone, Copy, Debug, Default, PartialEq, Eq)]
pub struct Run {
    pub state: u32,
    pub count: u32,
    pub earlier: Option<u32>,
    pub ended: bool,
}

impl Run {
    /// The run that these words are, if they are one.
    pub fn of_words(words: &[u32]) -> Option<Run> {
        match *words {
            [state, count, 0, 0, ended @ 0..=1] => Some(Run { state, count, earlier: None, ended: ended == 1 }),
            [state, count, 1, word, ended @ 0..=1] => {
                Some(Run { state, count, earlier: Some(word), ended: ended == 1 })
            }
            _ => None,
        }
    }

    pub fn words(&self) -> [u32; 5] {
        let earlier = self.earlier.unwrap_or(0);
        [self.state, self.count, self.earlier.is_some().into(), earlier, self.ended.into()]
    }
}

/// Runs the samples, writes those that capture takes to the start of `out`, and answers how many, and the run to hand
/// on.
pub fn bench(sheet: &[u8], samples: &[u32], run: Run, out: &mut [u32]) -> Result<(usize, Run), Refusal> {
    benched(sheet, samples, Some(run), out)
}

/// The same with the run as words, which may be none. Where it is done, the words are those of the run to hand on.
pub fn bench_words(sheet: &[u8], samples: &[u32], run: &mut [u32], out: &mut [u32]) -> Result<usize, Refusal> {
    let (taken, next) = benched(sheet, samples, Run::of_words(run), out)?;
    run.copy_from_slice(&next.words());
    Ok(taken)
}

fn benched(sheet: &[u8], samples: &[u32], run: Option<Run>, out: &mut [u32]) -> Result<(usize, Run), Refusal> {
    let programme = Programme::of(parts(sheet)?);
    if samples.len() > MOST_SAMPLES {
        return refused(20, MOST_SAMPLES);
    }
    let Some(mut run) = run.filter(|run| programme.takes(run)) else { return refused(24, 0) };
    let mut taken = Vec::with_capacity(samples.len());
    for &sample in samples {
        if run.ended {
            break;
        }
        if programme.step(&mut run, sample) {
            taken.push(sample);
        }
    }
    let Some(room) = out.get_mut(..taken.len()) else { return refused(12, taken.len()) };
    room.copy_from_slice(&taken);
    Ok((taken.len(), run))
}

/// The chain words of an accepted sheet, by slot. A state that the sheet does not have has a word all the same.
struct Programme {
    terms: [Option<[u32; 4]>; 10],
    ranges: [Option<[u32; 32]>; 2],
    edges: [Option<[u32; 8]>; 2],
    sums: [Option<[u32; 6]>; 48],
    states: [u32; 16],
}

/// Number 1, else state 0, no flags.
const MISSING_STATE: u32 = 1;

const LAST: u32 = 1 << 31;

/// The parts of a state's sums.
const HIT: usize = 0;
const ELSE: usize = 1;
const CAPTURE: usize = 2;

impl Programme {
    fn of(parts: [&[u8]; SECTIONS]) -> Programme {
        let terms = by_slot(parts[0], SIZE[0], |description| {
            let (target, mask) = two(description);
            term_words(target, mask)
        });
        let ranges = by_slot(parts[1], SIZE[1], |description| {
            let (lower, upper, mask) = three(description);
            range_words(lower, upper, mask)
        });
        let edges = by_slot(parts[2], SIZE[2], |description| {
            let (rise, fall, neither) = three(description);
            edge_words(rise, fall, neither)
        });
        let sums = by_slot(parts[3], SIZE[3], |description| {
            sum_words(description.try_into().expect("a sum has eleven operations"))
        });
        let states: [Option<u32>; 16] = by_slot(parts[4], SIZE[4], |description| {
            let (number, else_state, flags) = state(description);
            state_word(number, else_state, flags)
        });
        Programme { terms, ranges, edges, sums, states: states.map(|word| word.unwrap_or(MISSING_STATE)) }
    }

    /// Whether a run may be handed in.
    fn takes(&self, run: &Run) -> bool {
        run.state < 16 && run.count < self.number(run.state)
    }

    /// How often a state's hit sum must match.
    fn number(&self, state: u32) -> u32 {
        (self.states[state as usize] & 0xF_FFFF).max(1)
    }

    /// Looks at one sample, and answers whether capture takes it.
    fn step(&self, run: &mut Run, sample: u32) -> bool {
        let sources = self.sources(run.earlier.unwrap_or(sample), sample);
        let before = run.state;
        let matches = |part: usize| {
            let sum = &self.sums[3 * before as usize + part];
            sum.as_ref().is_some_and(|words| run_sum(words, sources) == Ok(true))
        };
        run.earlier = Some(sample);
        if matches(HIT) {
            self.count(run);
        } else if matches(ELSE) {
            run.state = self.states[before as usize] >> 20 & 15;
            run.count = 0;
        }
        matches(CAPTURE)
    }

    /// The hit sum has matched once more.
    fn count(&self, run: &mut Run) {
        run.count += 1;
        if run.count < self.number(run.state) {
            return;
        }
        run.count = 0;
        if run.state == 15 || self.states[run.state as usize] & LAST != 0 {
            run.ended = true;
        } else {
            run.state += 1;
        }
    }

    /// All sixteen sources; those of the timers, 14 and 15, stay 0.
    fn sources(&self, earlier: u32, sample: u32) -> u16 {
        let terms = hits(&self.terms, |words| run_term(words, sample));
        let ranges = hits(&self.ranges, |words| run_range(words, sample));
        let edges = hits(&self.edges, |words| run_edge(words, earlier, sample));
        terms | ranges << 10 | edges << 12
    }
}

/// What is made of each slot's description; none where a slot has no record.
fn by_slot<T, const N: usize>(part: &[u8], size: usize, make: impl Fn(&[u8]) -> T) -> [Option<T>; N] {
    let mut slots = std::array::from_fn(|_| None);
    for record in part.chunks_exact(size) {
        slots[usize::from(record[0])] = Some(make(&record[DESCRIPTION..]));
    }
    slots
}

/// A bit for each slot, the first one's lowest: whether there are words and they hit.
fn hits<T>(slots: &[Option<T>], run: impl Fn(&T) -> Result<bool, Refusal>) -> u16 {
    let hit = |words: &Option<T>| words.as_ref().is_some_and(|words| run(words) == Ok(true));
    slots.iter().rev().fold(0, |bits, words| bits << 1 | u16::from(hit(words)))
}
