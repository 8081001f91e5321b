//! bench of the proved library against the plain implementation: whole runs, runs in pieces, and refusals. Compared are
//! the answers, the run handed on, and all the words of the buffers, with some behind what is lent.
use plain::make::{self, Random, Setup, Tally};
use plain::programmes::{self, programme};
use plain::{Run, MOST_SAMPLES};

const RUNS: usize = 60_000;

// The call as it is: the wrapper lends no run of another length, and none with a flag above 1.
extern "C" {
    fn voltamar_bench(
        sheet: *const u8,
        n: usize,
        samples: *const u32,
        k: usize,
        run: *mut u32,
        run_words: usize,
        out: *mut u32,
        room: usize,
        place: *mut usize,
    ) -> u8;
}

/// The library's call in the shape of the plain one.
fn proved(sheet: &[u8], samples: &[u32], run: &mut [u32], out: &mut [u32]) -> Result<usize, (u8, usize)> {
    let mut place = usize::MAX;
    // SAFETY: each slice gives its own pointer and its own length, and the mutable ones overlap nothing.
    let number = unsafe {
        voltamar_bench(
            sheet.as_ptr(),
            sheet.len(),
            samples.as_ptr(),
            samples.len(),
            run.as_mut_ptr(),
            run.len(),
            out.as_mut_ptr(),
            out.len(),
            &mut place,
        )
    };
    match number {
        0 => Ok(place),
        number => Err((number, place)),
    }
}

/// Words behind what is lent, which neither side may touch.
const BEHIND: usize = 9;

fn noise(random: &mut Random, length: usize) -> Vec<u32> {
    (0..length).map(|_| random.u32()).collect()
}

/// What both sides answer, with the run's words and the words taken where they are done. Stops unless they agree.
fn both(
    random: &mut Random,
    sheet: &[u8],
    samples: &[u32],
    run: &[u32],
    room: usize,
) -> Result<(Vec<u32>, Vec<u32>), (u8, usize)> {
    let runs = [run, &noise(random, BEHIND)].concat();
    let outs = noise(random, room + BEHIND);
    let (mut run_a, mut run_b, mut out_a, mut out_b) = (runs.clone(), runs.clone(), outs.clone(), outs.clone());
    let got = proved(sheet, samples, &mut run_a[..run.len()], &mut out_a[..room]);
    let want = plain::bench_words(sheet, samples, &mut run_b[..run.len()], &mut out_b[..room])
        .map_err(|refusal| (refusal.number, refusal.place));
    let what = || format!("room {room}, run {run:X?}, sheet {sheet:02X?}, samples {samples:08X?}");
    assert_eq!(got, want, "{}", what());
    assert_eq!(run_a, run_b, "the run after {}", what());
    assert!(out_a == out_b, "the buffer after {}", what());
    assert!(got.is_ok() || (run_a == runs && out_a == outs), "a refusal writes: {}", what());
    run_a.truncate(run.len());
    got.map(|taken| (run_a, out_a[..taken].to_vec()))
}

fn number<T>(answer: &Result<T, (u8, usize)>) -> u8 {
    answer.as_ref().err().map_or(0, |refusal| refusal.0)
}

/// With few states that have their sums, or with many.
fn any_programme(random: &mut Random) -> Setup {
    let states = random.pick(&[1, 2, 3, 5, 9, 16]);
    programme(random, states)
}

/// None, few, some, many, and now and then as many as a call takes.
fn any_samples(random: &mut Random) -> Vec<u32> {
    let most = random.pick(&[1, 2, 20, 100, 300]);
    let count = if random.one_in(100) { MOST_SAMPLES - random.below(2) } else { random.below(most) };
    programmes::samples(random, count)
}

/// Around what is needed: too short, exact, larger, none, plenty.
fn any_room(random: &mut Random, needed: usize) -> usize {
    match random.below(6) {
        0 => needed.saturating_sub(1),
        1 => needed,
        2 => needed + 1 + random.below(9),
        3 => random.below(needed + 1),
        4 => 0,
        _ => MOST_SAMPLES,
    }
}

/// How many samples of an accepted call are taken.
fn needed(setup: &Setup, samples: &[u32], run: Run) -> usize {
    let mut out = vec![0; samples.len()];
    plain::bench(&setup.sheet(), samples, run, &mut out).expect("accepted, with room").0
}

#[test]
fn whole_runs_agree() {
    let mut random = Random(0xA076_1D64_78BD_642F);
    let mut tally = Tally::default();
    let (mut moved, mut ended, mut took) = (0, 0, 0);
    for _ in 0..RUNS {
        let setup = any_programme(&mut random);
        let (sheet, samples) = (setup.sheet(), any_samples(&mut random));
        let run = programmes::sound_run(&mut random, &setup);
        let needed = needed(&setup, &samples, run);
        let room = any_room(&mut random, needed);
        let answer = both(&mut random, &sheet, &samples, &run.words(), room);
        tally.count(number(&answer));
        if let Ok((words, taken)) = answer {
            let next = Run::of_words(&words).expect("a run is handed on");
            moved += usize::from(next.state != run.state);
            ended += usize::from(next.ended && !run.ended);
            took += usize::from(!taken.is_empty() && taken.len() < samples.len());
        }
    }
    tally.expect(&[12..=12], RUNS / 2, RUNS / 10);
    let often = [moved, ended, took].into_iter().all(|times| times > RUNS / 40);
    assert!(often, "{moved} moved, {ended} ended, {took} took some samples and not all");
}

/// The wrapper's run and the words are the same thing.
#[test]
fn the_wrapper_agrees() {
    let mut random = Random(0xE703_7ED1_A0B4_28DB);
    for _ in 0..RUNS / 10 {
        let setup = any_programme(&mut random);
        let (sheet, samples) = (setup.sheet(), any_samples(&mut random));
        let sound = random.one_in(2);
        let run = if sound { programmes::sound_run } else { programmes::bad_run }(&mut random, &setup);
        let (mut a, mut b) = (vec![0; samples.len()], vec![0; samples.len()]);
        let of = voltamar::Run { state: run.state, count: run.count, earlier: run.earlier, ended: run.ended };
        let got = voltamar::bench(&sheet, &samples, of, &mut a).map_err(|refusal| (refusal.number, refusal.place));
        let want = plain::bench(&sheet, &samples, run, &mut b).map_err(|refusal| (refusal.number, refusal.place));
        let got = got.map(|(taken, run)| (taken, run.state, run.count, run.earlier, run.ended));
        let want = want.map(|(taken, run)| (taken, run.state, run.count, run.earlier, run.ended));
        assert_eq!((got, sound), (want, want.is_ok()), "run {run:X?}, sheet {sheet:02X?}, samples {samples:08X?}");
        assert!(a == b, "the buffer after run {run:X?}, sheet {sheet:02X?}, samples {samples:08X?}");
    }
}

/// Cut anywhere, some pieces empty, each tried with too little room first: together they are what one call gives.
#[test]
fn pieces_agree() {
    let mut random = Random(0x8EBC_6AF0_9C88_C6E3);
    let (mut tally, mut handed_on) = (Tally::default(), 0);
    for _ in 0..RUNS / 4 {
        let setup = any_programme(&mut random);
        let (sheet, samples) = (setup.sheet(), any_samples(&mut random));
        let from = programmes::sound_run(&mut random, &setup).words();
        let whole = both(&mut random, &sheet, &samples, &from, samples.len()).expect("accepted, with room");
        let (mut run, mut taken, mut left) = (from.to_vec(), vec![], &samples[..]);
        while !left.is_empty() || random.one_in(3) {
            let (piece, rest) = left.split_at(random.below(left.len() + 1));
            let room = random.below(piece.len() + 1);
            let mut answer = both(&mut random, &sheet, piece, &run, room);
            tally.count(number(&answer));
            if let Err((_, needed)) = answer {
                answer = both(&mut random, &sheet, piece, &run, needed);
            }
            let (next, words) = answer.expect("room for what is needed");
            taken.extend(words);
            handed_on += usize::from(next[1] > 0 && !rest.is_empty());
            (run, left) = (next, rest);
        }
        assert_eq!((run, taken), whole, "from {from:X?}, sheet {sheet:02X?}, samples {samples:08X?}");
    }
    tally.expect(&[12..=12], RUNS / 4, RUNS / 20);
    assert!(handed_on > RUNS / 25, "a count above 0 was handed on {handed_on} times");
}

/// Damaged sheets, too many samples, runs and words that are refused, and short rooms, alone and together.
#[test]
fn refusals_agree() {
    let mut random = Random(0x5899_65CC_7537_4CC3);
    let mut tally = Tally::default();
    for _ in 0..RUNS {
        let setup = any_programme(&mut random);
        let sheet = match random.below(8) {
            0..=3 => setup.sheet(),
            4 => make::noise_sheet(&mut random),
            _ => make::damaged_sheet(&mut random, &setup),
        };
        let samples = match random.below(6) {
            0 => vec![random.u32(); MOST_SAMPLES + 1 + random.below(2)],
            _ => any_samples(&mut random),
        };
        let run = programmes::sound_run(&mut random, &setup);
        let words = match random.below(5) {
            0 => programmes::bad_run(&mut random, &setup).words().to_vec(),
            1 => programmes::no_run(&mut random, run),
            _ => run.words().to_vec(),
        };
        let room = if random.one_in(2) { 0 } else { random.below(MOST_SAMPLES) };
        tally.count(number(&both(&mut random, &sheet, &samples, &words, room)));
    }
    tally.expect(&[1..=12, 18..=20, 24..=24], RUNS / 10, RUNS / 2000);
}

/// What the header's numbers say, and nothing lent at all.
#[test]
fn limits_agree() {
    let mut random = Random(0x1D8E_4E27_C47D_124F);
    let sheet = any_programme(&mut random).sheet();
    let samples = vec![0; MOST_SAMPLES + 1];
    assert_eq!((MOST_SAMPLES, voltamar::MOST_SAMPLES), (4096, 4096));
    assert!(both(&mut random, &sheet, &samples[1..], &[0; 5], MOST_SAMPLES).is_ok());
    assert_eq!(both(&mut random, &sheet, &samples, &[0; 5], MOST_SAMPLES), Err((20, 4096)));
    assert_eq!(both(&mut random, &sheet, &samples, &[0, 0, 0, 0, 1], MOST_SAMPLES), Err((20, 4096)));
    for length in 0..12 {
        let answer = both(&mut random, &sheet, &[], &vec![0; length], 0);
        assert_eq!(number(&answer), if length == 5 { 0 } else { 24 }, "{length} words");
    }
    assert_eq!(both(&mut random, &[], &[], &[], 0), Err((1, 0)));
}
