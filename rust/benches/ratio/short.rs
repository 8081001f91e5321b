//! Calls of some nanoseconds, both sides behind the same boundary.
use crate::boundary::{self, Calls};
use crate::timing::{compare, Plan, Row};
use plain::make::{self, Random};

const PLAN: Plan = Plan { turns: 100, inputs: 4000, things: 1 };

/// The same call of both sides.
fn row<I>(name: &'static str, make: impl FnMut() -> I, call: impl Fn(&Calls, &I) -> u64) -> Row {
    let [proved, plain] = boundary::both();
    compare(name, PLAN, make, |input| call(&proved, input), |input| call(&plain, input))
}

/// Masks and ranges of any shape, random samples. The rules of a term and an edge are a few instructions: their time is
/// the boundary's.
fn rules(random: &mut Random) -> Vec<Row> {
    vec![
        row("gather", || (random.u32(), random.mask()), |calls, &(sample, mask)| calls.gather(sample, mask)),
        row(
            "range_hit",
            || (make::range(random), random.u32()),
            |calls, &(range, sample)| calls.range_hit(range, sample),
        ),
    ]
}

/// The model, on the words of accepted descriptions.
fn model(random: &mut Random) -> Vec<Row> {
    vec![
        row(
            "run_term",
            || (plain::term_words(random.u32(), random.mask()), random.u32()),
            |calls, (words, sample)| calls.run_term(words, *sample),
        ),
        row(
            "run_range",
            || {
                let [lower, upper, mask] = make::range(random);
                (plain::range_words(lower, upper, mask), random.u32())
            },
            |calls, (words, sample)| calls.run_range(words, *sample),
        ),
        row(
            "run_edge",
            || {
                let [rise, fall, neither] = make::edge(random);
                (plain::edge_words(rise, fall, neither), random.u32(), random.u32())
            },
            |calls, (words, earlier, later)| calls.run_edge(words, *earlier, *later),
        ),
        row(
            "run_sum",
            || (plain::sum_words(&make::sum(random)), random.u32() as u16),
            |calls, (words, sources)| calls.run_sum(words, *sources),
        ),
    ]
}

/// Two random sums.
fn tellings(random: &mut Random) -> Row {
    row("sum_telling", || (make::sum(random), make::sum(random)), |calls, (old, new)| calls.sum_telling(old, new))
}

pub fn rows(random: &mut Random) -> Vec<Row> {
    let mut rows = rules(random);
    rows.extend(model(random));
    rows.push(tellings(random));
    rows
}
