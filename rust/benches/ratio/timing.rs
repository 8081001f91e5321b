//! Both sides of a call timed on the same inputs, which are made anew for every turn and outside the timed part: a
//! processor learns inputs that come again.
use std::hint::black_box;
use std::time::Instant;

const ROUNDS: usize = 5;

/// A call's times, for each round the median of its turns: nanoseconds of one thing, of the proved side and of plain.
pub struct Row {
    name: &'static str,
    rounds: Vec<[f64; 2]>,
}

/// How a call is timed: turns in a round, inputs in a turn, and things in an input.
#[derive(Clone, Copy)]
pub struct Plan {
    pub turns: usize,
    pub inputs: usize,
    pub things: usize,
}

/// Times both sides. Each answers a number; stops unless the two are the same on every input.
pub fn compare<I>(
    name: &'static str,
    plan: Plan,
    mut make: impl FnMut() -> I,
    mut proved: impl FnMut(&I) -> u64,
    mut plain: impl FnMut(&I) -> u64,
) -> Row {
    let mut answers = [vec![0; plan.inputs], vec![0; plan.inputs]];
    let mut turn = |number: usize| {
        let inputs: Vec<I> = (0..plan.inputs).map(|_| make()).collect();
        let mut times = [0.0; 2];
        for side in [number % 2, 1 - number % 2] {
            times[side] = match side {
                0 => time(&inputs, &mut answers[0], &mut proved),
                _ => time(&inputs, &mut answers[1], &mut plain),
            };
        }
        assert!(answers[0] == answers[1], "{name}: {:?}", differing(&answers));
        times.map(|seconds| seconds * 1e9 / (plan.inputs * plan.things) as f64)
    };
    turn(0); // not counted
    let mut round = || {
        let turns: Vec<[f64; 2]> = (0..plan.turns).map(&mut turn).collect();
        [0, 1].map(|side| median(turns.iter().map(|times| times[side])))
    };
    let row = Row { name, rounds: (0..ROUNDS).map(|_| round()).collect() };
    row.print();
    row
}

/// Seconds for all inputs. The answers are kept, so that none can be left out.
#[inline(never)]
fn time<I>(inputs: &[I], answers: &mut [u64], call: &mut impl FnMut(&I) -> u64) -> f64 {
    let start = Instant::now();
    for (input, answer) in inputs.iter().zip(&mut *answers) {
        *answer = call(input);
    }
    black_box(answers);
    start.elapsed().as_secs_f64()
}

/// The first input on which the two sides differ, and what they answer.
fn differing([proved, plain]: &[Vec<u64>; 2]) -> Option<(usize, u64, u64)> {
    let both = proved.iter().zip(plain).enumerate();
    both.map(|(at, (&a, &b))| (at, a, b)).find(|&(_, a, b)| a != b)
}

fn median(numbers: impl Iterator<Item = f64>) -> f64 {
    let mut numbers: Vec<f64> = numbers.collect();
    numbers.sort_by(f64::total_cmp);
    numbers[numbers.len() / 2]
}

impl Row {
    pub fn print_head() {
        println!("{:<16} {:>12} {:>12} {:>8}   spread", "call", "proved (ns)", "plain (ns)", "ratio");
    }

    /// Each round's ratio, the least first.
    fn ratios(&self) -> Vec<f64> {
        let mut ratios: Vec<f64> = self.rounds.iter().map(|[proved, plain]| proved / plain).collect();
        ratios.sort_by(f64::total_cmp);
        ratios
    }

    fn print(&self) {
        let [proved, plain] = [0, 1].map(|side| median(self.rounds.iter().map(|times| times[side])));
        let ratios = self.ratios();
        let (least, ratio, greatest) = (ratios[0], ratios[ROUNDS / 2], ratios[ROUNDS - 1]);
        println!("{:<16} {proved:>12.1} {plain:>12.1} {ratio:>8.2}   {least:.2} to {greatest:.2}", self.name);
    }

    /// Which calls take longer than plain, by the median of the rounds as it is printed.
    pub fn print_above(rows: &[Row]) {
        let ratios = rows.iter().map(|row| (row.name, format!("{:.2}", row.ratios()[ROUNDS / 2])));
        let above: Vec<String> = ratios
            .filter(|(_, ratio)| ratio.as_str() > "1.00")
            .map(|(name, ratio)| format!("{name} {ratio}"))
            .collect();
        println!("above 1.0: {}", if above.is_empty() { "none".into() } else { above.join(", ") });
    }
}
