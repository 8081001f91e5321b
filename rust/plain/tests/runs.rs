//! The bench of the plain implementation: each number of its rules as an example, and what is promised of pieces.
use plain::make::{record, Random, Setup, Tally};
use plain::programmes::{self, programme};
use plain::{bench, bench_words, check, Refusal, Run, MOST_SAMPLES, SECTIONS};

/// What a sample of these tests does by its lowest lines; every state's sums are so (see `sums`).
const HIT: u32 = 1;
const ELSE: u32 = 2;
const TAKE: u32 = 4;

const FRESH: Run = Run { state: 0, count: 0, earlier: None, ended: false };

fn refusal<T>(number: u8, place: usize) -> Result<T, Refusal> {
    Err(Refusal { number, place })
}

fn add(setup: &mut Setup, section: usize, slot: u8, description: &[u8]) {
    setup.sections[section].push(record(slot, &format!("LABEL {slot:02}"), description));
}

fn numbers(numbers: &[u32]) -> Vec<u8> {
    numbers.iter().flat_map(|number| number.to_le_bytes()).collect()
}

/// The operations ab, c, d, e, fg, h, i, j as given; a sum that matches when one of them does.
fn one_of(pairs: [u8; 8]) -> Vec<u8> {
    [&pairs[..], &[OR; 3]].concat()
}

const ANY: u8 = 1;
const OR: u8 = 4;
const A: u8 = 8;
const B: u8 = 9;

/// Three terms, for a line each, and for each state the hit, else and capture sum that ask for one of them.
fn sums(states: &[u8]) -> Setup {
    let mut setup = Setup::default();
    for (slot, line) in [HIT, ELSE, TAKE].into_iter().enumerate() {
        add(&mut setup, 0, slot as u8, &numbers(&[line, line]));
    }
    for &state in states {
        add(&mut setup, 3, 3 * state, &one_of([A, 0, 0, 0, 0, 0, 0, 0]));
        add(&mut setup, 3, 3 * state + 1, &one_of([B, 0, 0, 0, 0, 0, 0, 0]));
        add(&mut setup, 3, 3 * state + 2, &one_of([0, A, 0, 0, 0, 0, 0, 0]));
    }
    setup
}

/// The flags by their bits, the lowest first.
fn state(setup: &mut Setup, slot: u8, number: u32, else_state: u8, flags: u8) {
    let mut description = numbers(&[number]);
    description.push(else_state);
    description.extend((0..8).map(|bit| flags >> bit & 1));
    add(setup, 4, slot, &description);
}

const TRIGGER: u8 = 0x40;
const LAST: u8 = 0x80;

/// The samples taken and the run handed on.
fn run_from(setup: &Setup, run: Run, samples: &[u32]) -> (Vec<u32>, Run) {
    let mut out = vec![0; samples.len()];
    let (length, next) = bench(&setup.sheet(), samples, run, &mut out).expect("accepted, with room");
    out.truncate(length);
    (out, next)
}

fn run_of(setup: &Setup, samples: &[u32]) -> (Vec<u32>, Run) {
    run_from(setup, FRESH, samples)
}

/// State, count and whether it ended.
fn after(setup: &Setup, run: Run, samples: &[u32]) -> (u32, u32, bool) {
    let (_, next) = run_from(setup, run, samples);
    (next.state, next.count, next.ended)
}

fn in_state(state: u32, count: u32) -> Run {
    Run { state, count, ..FRESH }
}

#[test]
fn the_most_samples() {
    let setup = sums(&[0]);
    let samples = vec![TAKE; MOST_SAMPLES + 1];
    assert_eq!(MOST_SAMPLES, 4096);
    assert_eq!(run_of(&setup, &samples[..4096]).0.len(), 4096);
    let mut out = vec![7; 5000];
    assert_eq!(bench(&setup.sheet(), &samples, FRESH, &mut out), refusal(20, 4096));
    let ended = Run { ended: true, ..FRESH };
    assert_eq!(bench(&setup.sheet(), &samples, ended, &mut out), refusal(20, 4096), "though none would be looked at");
    assert_eq!(out, [7; 5000]);
}

#[test]
fn states_up_to_fifteen() {
    let setup = sums(&[0, 15]);
    for ended in [false, true] {
        for samples in [&[][..], &[0]] {
            let judged = |state| bench(&setup.sheet(), samples, Run { state, ended, ..FRESH }, &mut []);
            assert!((0..16).all(|state| judged(state).is_ok()));
            assert!([16, 17, 255, 256, u32::MAX].into_iter().all(|state| judged(state) == refusal(24, 0)));
        }
    }
}

#[test]
fn how_often_the_hit_sum_must_match() {
    for (number, times) in [(0, 1), (1, 1), (2, 2), (3, 3), (100, 100)] {
        let mut setup = sums(&[0]);
        state(&mut setup, 0, number, 0, 0);
        let samples = vec![HIT; times];
        assert_eq!(after(&setup, FRESH, &samples[1..]), (0, times as u32 - 1, false), "number {number}");
        assert_eq!(after(&setup, FRESH, &samples), (1, 0, false), "number {number}");
        // what does not match in between does not count, and the count stays
        let samples = vec![[HIT, 0]; times].concat();
        assert_eq!(after(&setup, FRESH, &samples), (1, 0, false), "number {number}");
    }
    let mut setup = sums(&[7]);
    state(&mut setup, 7, 0xF_FFFF, 0, 0);
    assert_eq!(after(&setup, in_state(7, 0xF_FFFD), &[HIT]), (7, 0xF_FFFE, false));
    assert_eq!(after(&setup, in_state(7, 0xF_FFFE), &[HIT]), (8, 0, false));
}

#[test]
fn a_count_is_below_its_number() {
    let mut setup = sums(&[]);
    for (slot, number) in [(0, 0), (1, 1), (2, 3), (3, 0xF_FFFF)] {
        state(&mut setup, slot, number, 0, 0);
    }
    let judged = |state, count, ended| {
        bench(&setup.sheet(), &[], Run { ended, ..in_state(state, count) }, &mut []).map(|(taken, _)| taken)
    };
    // the last one is a state that the sheet does not have
    for (state, number) in [(0, 1), (1, 1), (2, 3), (3, 0xF_FFFF), (4, 1)] {
        for ended in [false, true] {
            assert_eq!(judged(state, 0, ended), Ok(0));
            assert_eq!(judged(state, number - 1, ended), Ok(0), "state {state}");
            assert_eq!(judged(state, number, ended), refusal(24, 0), "state {state}");
            assert_eq!(judged(state, number + 1, ended), refusal(24, 0), "state {state}");
            assert_eq!(judged(state, u32::MAX, ended), refusal(24, 0), "state {state}");
        }
    }
}

#[test]
fn hit_is_looked_at_before_else() {
    let mut setup = sums(&[2]);
    state(&mut setup, 2, 5, 9, 0);
    let from = in_state(2, 3);
    assert_eq!(after(&setup, from, &[HIT]), (2, 4, false));
    assert_eq!(after(&setup, from, &[HIT | ELSE]), (2, 4, false), "both match");
    assert_eq!(after(&setup, from, &[ELSE]), (9, 0, false));
    assert_eq!(after(&setup, from, &[0]), (2, 3, false));
    assert_eq!(after(&setup, in_state(2, 4), &[HIT | ELSE]), (3, 0, false), "both match, and the state is complete");
}

#[test]
fn an_else_state_may_be_any() {
    for to in 0..16 {
        let mut setup = sums(&[2]);
        state(&mut setup, 2, 5, to, LAST);
        assert_eq!(after(&setup, in_state(2, 3), &[ELSE]), (to.into(), 0, false), "its own too: it counts anew");
    }
}

#[test]
fn the_last_flag_ends_the_run() {
    let mut setup = sums(&[3]);
    state(&mut setup, 3, 2, 0, LAST);
    assert_eq!(after(&setup, in_state(3, 0), &[HIT]), (3, 1, false), "not complete");
    assert_eq!(after(&setup, in_state(3, 1), &[HIT]), (3, 0, true), "it stays in its state");
    assert_eq!(after(&setup, in_state(3, 1), &[ELSE]), (0, 0, false), "a branch does not end it");
}

#[test]
fn the_other_flags_do_nothing() {
    for flags in [0, TRIGGER, 0x01, 0x02, 0x04, 0x08, 0x10, 0x20, 0x7F] {
        let mut setup = sums(&[3]);
        state(&mut setup, 3, 1, 5, flags);
        assert_eq!(after(&setup, in_state(3, 0), &[HIT]), (4, 0, false), "flags {flags:02X}");
        assert_eq!(after(&setup, in_state(3, 0), &[ELSE]), (5, 0, false), "flags {flags:02X}");
        assert_eq!(run_from(&setup, in_state(3, 0), &[0]).0, [], "flags {flags:02X}");
    }
}

#[test]
fn state_fifteen_ends_the_run() {
    let mut setup = sums(&[14, 15]);
    assert_eq!(after(&setup, in_state(14, 0), &[HIT]), (15, 0, false));
    assert_eq!(after(&setup, in_state(14, 0), &[HIT, HIT]), (15, 0, true), "one that the sheet does not have");
    state(&mut setup, 15, 2, 4, 0);
    assert_eq!(after(&setup, in_state(15, 0), &[HIT]), (15, 1, false));
    assert_eq!(after(&setup, in_state(15, 1), &[HIT]), (15, 0, true));
    assert_eq!(after(&setup, in_state(15, 1), &[ELSE]), (4, 0, false));
}

#[test]
fn a_missing_state_has_number_one_and_else_state_nought() {
    let setup = sums(&[0, 6, 7]);
    assert_eq!(after(&setup, in_state(6, 0), &[HIT]), (7, 0, false));
    assert_eq!(after(&setup, in_state(6, 0), &[ELSE]), (0, 0, false));
    assert_eq!(run_from(&setup, in_state(6, 0), &[TAKE, TAKE | HIT, TAKE]).0.len(), 3);
}

#[test]
fn a_missing_sum_never_matches() {
    let all = HIT | ELSE | TAKE;
    for missing in 0..3 {
        let mut setup = sums(&[4]);
        setup.sections[3].remove(missing);
        state(&mut setup, 4, 1, 11, 0);
        let (taken, next) = run_from(&setup, in_state(4, 0), &[all]);
        assert_eq!((taken.len(), next.state), [(1, 11), (1, 5), (0, 5)][missing]);
    }
    assert_eq!(run_of(&Setup::default(), &[all; 9]), (vec![], Run { earlier: Some(all), ..FRESH }));
}

/// One tree for two sums: the hit sum is its first half and the else sum its second, also where both say yes.
#[test]
fn final_a_and_b_take_one_half_whatever_the_other_says() {
    let mut setup = Setup::default();
    add(&mut setup, 0, 0, &numbers(&[HIT, HIT])); // a, in the first half
    add(&mut setup, 0, 5, &numbers(&[ELSE, ELSE])); // f, in the second
    for (part, last) in [(0, A), (1, B), (2, B)] {
        add(&mut setup, 3, part, &[A, 0, 0, 0, A, 0, 0, 0, OR, OR, last]);
    }
    state(&mut setup, 0, 2, 9, 0);
    assert_eq!(after(&setup, FRESH, &[0]), (0, 0, false));
    assert_eq!(after(&setup, FRESH, &[HIT]), (0, 1, false));
    assert_eq!(after(&setup, FRESH, &[ELSE]), (9, 0, false));
    assert_eq!(after(&setup, FRESH, &[HIT | ELSE]), (0, 1, false), "the hit sum comes first");
    assert_eq!(run_of(&setup, &[0, HIT, HIT | ELSE]).0, [HIT | ELSE], "taken where the second half says yes");
}

/// Each slot's sum, which matches always, is used in its own state alone, and as its own part alone.
#[test]
fn slots_are_three_times_the_state_and_the_part() {
    for slot in 0..48 {
        let mut setup = Setup::default();
        add(&mut setup, 3, slot, &[0, 0, 0, 0, 0, 0, 0, 0, 0, 0, ANY]);
        for slot in 0..16 {
            state(&mut setup, slot, 2, (slot + 5) % 16, 0);
        }
        for state in 0..16 {
            let (taken, next) = run_from(&setup, in_state(state.into(), 0), &[0]);
            let part = if slot / 3 == state { slot % 3 } else { 3 };
            let state = u32::from(state);
            let want = [(0, state, 1), (0, (state + 5) % 16, 0), (1, state, 0), (0, state, 0)][usize::from(part)];
            assert_eq!((taken.len(), next.state, next.count), want, "slot {slot} in state {state}");
        }
    }
}

/// A line for each detector, and a sum for each source: it matches when that one hits.
#[test]
fn sources_by_their_slots() {
    let mut setup = Setup::default();
    for slot in 0..10 {
        add(&mut setup, 0, slot, &numbers(&[1 << slot, 1 << slot]));
    }
    for slot in 0..2 {
        add(&mut setup, 1, slot, &numbers(&[1, 1, 1 << (10 + slot)]));
        add(&mut setup, 2, slot, &numbers(&[1 << (12 + slot), 0, 0]));
    }
    // the pairs, each with its A and its B
    let pairs = [(0, 1), (2, 10), (3, 12), (4, 14), (5, 6), (7, 11), (8, 13), (9, 15)];
    for (pair, (a, b)) in pairs.into_iter().enumerate() {
        for (source, operation) in [(a, A), (b, B)] {
            let mut setup = setup.clone();
            let mut operations = [0; 8];
            operations[pair] = operation;
            add(&mut setup, 3, 2, &one_of(operations));
            let taken = |sample| !run_from(&setup, Run { earlier: Some(0), ..FRESH }, &[sample]).0.is_empty();
            let timer = source >= 14;
            assert!((0..32).all(|line| taken(1 << line) == (line == source && !timer)), "source {source}");
            assert_eq!((taken(0), taken(u32::MAX)), (false, !timer), "source {source}");
            // without its record it never hits
            setup.sections[..3].iter_mut().for_each(Vec::clear);
            let (none, _) = run_from(&setup, Run { earlier: Some(0), ..FRESH }, &[u32::MAX]);
            assert_eq!(none, [], "source {source}");
        }
    }
}

/// An edge, and a programme that takes where it hits.
fn edge(wishes: [u32; 3]) -> Setup {
    let mut setup = Setup::default();
    add(&mut setup, 2, 0, &numbers(&wishes));
    add(&mut setup, 3, 2, &one_of([0, 0, B, 0, 0, 0, 0, 0]));
    setup
}

/// The first sample is its own earlier word, so that only "neither" can hit.
#[test]
fn the_first_sample_has_none_before_it() {
    let (rise, fall, neither) = (edge([1, 0, 0]), edge([0, 1, 0]), edge([0, 0, 1]));
    let taken = |setup: &Setup, earlier, samples: &[u32]| run_from(setup, Run { earlier, ..FRESH }, samples).0;
    for first in [0, 1] {
        assert_eq!(taken(&neither, None, &[first]), [first]);
        assert_eq!(taken(&rise, None, &[first]), []);
        assert_eq!(taken(&fall, None, &[first]), []);
    }
    assert_eq!(taken(&neither, None, &[0, 1, 1, 0, 2]), [0, 1, 2]);
    assert_eq!(taken(&rise, None, &[1, 0, 3, 1, 0, 5]), [3, 5]);
    assert_eq!(taken(&fall, None, &[1, 2, 0, 1, 4]), [2, 4]);
    // what was handed on counts, a word of 0 too
    assert_eq!(taken(&rise, Some(0), &[1]), [1]);
    assert_eq!(taken(&neither, Some(0), &[1]), []);
    assert_eq!(taken(&fall, Some(1), &[0]), [0]);
}

/// Neither together with rise takes where the line does not fall, together with fall where it does not rise.
#[test]
fn a_line_that_stays_or_rises() {
    let (stays_or_rises, stays_or_falls) = (edge([1, 0, 1]), edge([0, 1, 1]));
    // the last digit has line 0: it stays at first, stays, falls, stays, rises, falls, stays, rises, stays
    let samples = [0x11, 0x23, 0x30, 0x42, 0x55, 0x64, 0x74, 0x87, 0x97];
    assert_eq!(run_of(&stays_or_rises, &samples).0, [0x11, 0x23, 0x42, 0x55, 0x74, 0x87, 0x97]);
    assert_eq!(run_of(&stays_or_falls, &samples).0, [0x11, 0x23, 0x30, 0x42, 0x64, 0x74, 0x97]);
    // what was handed on counts
    let taken = |setup: &Setup, earlier, sample| run_from(setup, Run { earlier: Some(earlier), ..FRESH }, &[sample]).0;
    assert_eq!((taken(&stays_or_rises, 0, 1), taken(&stays_or_rises, 1, 0)), (vec![1], vec![]));
    assert_eq!((taken(&stays_or_falls, 0, 1), taken(&stays_or_falls, 1, 0)), (vec![], vec![0]));
    // a fall is taken where another line does what is asked for it
    let two = edge([3, 0, 1]);
    assert_eq!((taken(&two, 1, 0), taken(&two, 1, 2), taken(&two, 3, 2)), (vec![], vec![2], vec![]));
}

/// On each line, each wish: taken are the samples on which the plain rule hits, with the one before.
#[test]
fn every_wish_takes_by_the_plain_rule() {
    let mut random = Random(12);
    for all in 0..32 * 7 {
        let (line, wish) = (all / 7, all % 7);
        let [rise, fall, neither] = [wish & 1, wish >> 1 & 1, wish >> 2].map(|asked| asked << line);
        let samples: Vec<u32> = (0..40).map(|_| random.u32()).collect();
        let before = samples[..1].iter().chain(&samples);
        let hit = |&(&earlier, &later): &(&u32, &u32)| plain::edge_hit(rise, fall, neither, earlier, later);
        let want: Vec<u32> = before.zip(&samples).filter(hit).map(|(_, &later)| later).collect();
        assert_eq!(run_of(&edge([rise, fall, neither]), &samples).0, want, "line {line}, wish {wish}");
        assert_eq!((want.is_empty(), want.len() < 40), (wish == 0, true), "some of them, and not all");
    }
}

#[test]
fn capture_goes_by_the_state_before_the_step() {
    let mut setup = sums(&[0]); // state 1 takes nothing
    assert_eq!(run_of(&setup, &[TAKE | HIT, TAKE, TAKE]).0, [TAKE | HIT]);
    state(&mut setup, 0, 2, 1, 0);
    assert_eq!(run_of(&setup, &[TAKE, TAKE | ELSE, TAKE]).0, [TAKE, TAKE | ELSE]);
    assert_eq!(run_of(&setup, &[HIT, 0, TAKE | HIT, TAKE]).0, [TAKE | HIT]);
}

#[test]
fn the_sample_that_ends_the_run_is_the_last_to_be_looked_at() {
    let mut setup = sums(&[0]);
    state(&mut setup, 0, 1, 0, LAST);
    let ending = TAKE | HIT | 0x80;
    let ended = Run { ended: true, earlier: Some(ending), ..FRESH };
    assert_eq!(run_of(&setup, &[TAKE, ending, TAKE, ELSE, HIT]), (vec![TAKE, ending], ended));
    assert_eq!(run_of(&setup, &[HIT, TAKE]).0, [], "taken by the capture sum alone");
    // a run that has ended is handed on as it was
    for run in [ended, Run { earlier: None, ..ended }, Run { ended: true, ..in_state(9, 0) }] {
        assert_eq!(run_from(&setup, run, &[TAKE, HIT, ELSE]), (vec![], run));
        assert_eq!(run_from(&setup, run, &[]), (vec![], run));
    }
}

#[test]
fn no_samples_change_nothing() {
    let setup = sums(&[0]);
    for run in [FRESH, Run { earlier: Some(0), ..FRESH }, in_state(15, 0)] {
        assert_eq!(run_from(&setup, run, &[]), (vec![], run));
    }
}

#[test]
fn room_for_the_words_taken() {
    let (sheet, samples) = (sums(&[0]).sheet(), [TAKE, 0, TAKE | 8, TAKE | ELSE, 0]);
    for room in 0..3 {
        let (mut out, mut run) = (vec![7; room], FRESH.words());
        assert_eq!(bench(&sheet, &samples, FRESH, &mut out), refusal(12, 3));
        assert_eq!(bench_words(&sheet, &samples, &mut run, &mut out), refusal(12, 3));
        assert_eq!((out, run), (vec![7; room], [0; 5]), "nothing is written");
    }
    for room in 3..6 {
        let (mut out, mut run) = (vec![7; room], FRESH.words());
        assert_eq!(bench_words(&sheet, &samples, &mut run, &mut out), Ok(3));
        assert_eq!(out[..3], [TAKE, TAKE | 8, TAKE | ELSE]);
        assert!(out[3..].iter().all(|&word| word == 7), "the words beyond stay");
        assert_eq!(run, [0, 0, 1, 0, 0]);
    }
    assert_eq!(bench(&sheet, &[0, HIT], FRESH, &mut []), Ok((0, Run { state: 1, earlier: Some(HIT), ..FRESH })));
}

#[test]
fn which_refusal_comes() {
    let (sheet, refused) = (sums(&[0]).sheet(), [0; SECTIONS - 1]);
    let (many, few) = (vec![TAKE; MOST_SAMPLES + 1], [TAKE]);
    let judged = |sheet: &[u8], samples, run| bench(sheet, samples, run, &mut []);
    assert_eq!(judged(&refused, &many[..], in_state(16, 0)), refusal(1, SECTIONS - 1));
    assert_eq!(judged(&sheet, &many[..], in_state(16, 0)), refusal(20, 4096));
    assert_eq!(judged(&sheet, &few[..], in_state(16, 0)), refusal(24, 0));
    assert_eq!(judged(&sheet, &few[..], FRESH), refusal(12, 1));
    assert_eq!(judged(&sheet, &[], FRESH), Ok((0, FRESH)));
    // words that are no run are refused where a bad run is
    let words = |sheet: &[u8], samples| bench_words(sheet, samples, &mut [0; 4], &mut []);
    assert_eq!(words(&refused, &many[..]), refusal(1, SECTIONS - 1));
    assert_eq!(words(&sheet, &many[..]), refusal(20, 4096));
    assert_eq!(words(&sheet, &few[..]), refusal(24, 0));
}

#[test]
fn a_run_in_words() {
    let run = |words: &[u32]| Run::of_words(words);
    assert_eq!(run(&[0; 5]), Some(FRESH));
    assert_eq!(run(&[3, 9, 1, 0, 1]), Some(Run { state: 3, count: 9, earlier: Some(0), ended: true }));
    assert_eq!(run(&[16, 9, 1, 8, 0]), Some(Run { state: 16, count: 9, earlier: Some(8), ended: false }));
    for length in (0..10).filter(|&length| length != 5) {
        assert_eq!(run(&vec![0; length]), None, "{length} words");
    }
    for no_run in [[0, 0, 2, 0, 0], [0, 0, 0, 0, 2], [0, 0, u32::MAX, 1, 0], [0, 0, 0, 1, 0], [0, 0, 0, u32::MAX, 1]] {
        assert_eq!(run(&no_run), None);
        assert_eq!(bench_words(&[0; SECTIONS], &[], &mut no_run.clone(), &mut []), refusal(24, 0));
    }
    for words in [[0; 5], [15, 0xF_FFFE, 1, 5, 1], [7, 0, 0, 0, 1], [1, 2, 1, u32::MAX, 0]] {
        assert_eq!(run(&words).expect("a run").words(), words);
    }
}

/// Whether `part` is what is left of `whole` when some of it is taken out.
fn subsequence(part: &[u32], whole: &[u32]) -> bool {
    let mut left = whole.iter();
    part.iter().all(|word| left.any(|other| other == word))
}

/// Pieces give what one call gives; a run handed on is taken; an ended one stays. And the inputs are worth it.
#[test]
fn pieces_give_what_one_call_gives() {
    let mut random = Random(10);
    let (mut tally, mut moved, mut ended, mut took) = (Tally::default(), 0, 0, 0);
    for _ in 0..4_000 {
        let states = 1 + random.below(16) as u8;
        let setup = programme(&mut random, states);
        assert_eq!(check(&setup.sheet()), Ok(()));
        let length = random.below(60);
        let samples = programmes::samples(&mut random, length);
        let from = programmes::sound_run(&mut random, &setup);
        let (whole, end) = run_from(&setup, from, &samples);
        assert!(subsequence(&whole, &samples));
        let (mut pieces, mut run, mut left) = (vec![], from, &samples[..]);
        while !left.is_empty() || random.one_in(2) {
            let (piece, rest) = left.split_at(random.below(left.len() + 1));
            let (words, next) = run_from(&setup, run, piece);
            moved += usize::from(next.state != run.state);
            assert!(!run.ended || words.is_empty() && next == run);
            pieces.extend(words);
            (run, left) = (next, rest);
        }
        assert_eq!((pieces, run), (whole.clone(), end));
        ended += usize::from(end.ended && !from.ended);
        took += usize::from(!whole.is_empty() && whole.len() < samples.len());
        let bad = programmes::bad_run(&mut random, &setup);
        tally.count(bench(&setup.sheet(), &samples, bad, &mut []).expect_err("a bad run").number);
        let mut words = programmes::no_run(&mut random, from);
        tally.count(bench_words(&setup.sheet(), &samples, &mut words, &mut []).expect_err("no run").number);
    }
    tally.expect(&[24..=24], 0, 8_000);
    assert!(moved > 3_000 && ended > 400 && took > 1_500, "{moved} moved, {ended} ended, {took} took some samples");
}

#[test]
fn an_endless_programme_is_full_and_does_not_end() {
    let mut random = Random(11);
    for _ in 0..20 {
        let setup = programmes::endless(&mut random);
        let records = setup.sections.each_ref().map(Vec::len);
        assert_eq!((check(&setup.sheet()), records), (Ok(()), plain::MOST.map(usize::from)));
        let samples: Vec<u32> = (0..MOST_SAMPLES).map(|_| random.u32()).collect();
        assert!(!run_of(&setup, &samples).1.ended);
    }
}
