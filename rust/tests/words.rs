//! gather, the plain rules of a hit and the model of the proved library against the plain implementation: on any words
//! (all sorts, right and wrong counts), on the words of accepted descriptions, and on any samples.
use plain::make::{self, Random, Tally};

const ROUNDS: usize = 200_000;

/// A sample that has a chance: random, or near a number of the description.
fn sample(random: &mut Random, near: &[u32]) -> u32 {
    match random.below(4) {
        0 => random.u32(),
        1 => random.mask(),
        2 => random.pick(near),
        _ => random.pick(near) ^ 1 << random.below(32),
    }
}

/// The right count mostly, else any other.
fn count(random: &mut Random, right: usize) -> usize {
    if random.one_in(8) {
        random.below(70)
    } else {
        right
    }
}

#[test]
fn gather_and_hits_agree() {
    let mut random = Random(0x853C_49E6_748F_EA9B);
    let mut hits = [0; 3];
    for _ in 0..ROUNDS {
        let (s, mask) = (random.u32(), random.mask());
        assert_eq!(voltamar::gather(s, mask), plain::gather(s, mask), "gather {s:08X} {mask:08X}");

        let (target, mask) = (random.mask(), random.mask());
        let s = sample(&mut random, &[target, target & mask]);
        let want = plain::term_hit(target, mask, s);
        assert_eq!(voltamar::term_hit(target, mask, s), want, "term {target:08X} {mask:08X} {s:08X}");
        hits[0] += usize::from(want);

        // any numbers, accepted or not
        let [mut lower, mut upper, mask] = make::range(&mut random);
        if random.one_in(4) {
            (lower, upper) = (random.mask(), random.mask());
        }
        let s = sample(&mut random, &[lower, upper, mask]);
        let want = plain::range_hit(lower, upper, mask, s);
        assert_eq!(voltamar::range_hit(lower, upper, mask, s), want, "range {lower:X} {upper:X} {mask:08X} {s:08X}");
        hits[1] += usize::from(want);

        let (rise, fall, neither) = (few(&mut random), few(&mut random), few(&mut random));
        let earlier = sample(&mut random, &[rise, fall, neither]);
        let later = sample(&mut random, &[earlier, !earlier, rise, fall]);
        let want = plain::edge_hit(rise, fall, neither, earlier, later);
        let got = voltamar::edge_hit(rise, fall, neither, earlier, later);
        assert_eq!(got, want, "edge {rise:08X} {fall:08X} {neither:08X} {earlier:08X} {later:08X}");
        hits[2] += usize::from(want);
    }
    assert!(hits.iter().all(|hits| (ROUNDS / 20..ROUNDS * 19 / 20).contains(hits)), "{hits:?}");
}

/// Each byte of a sample under each mask of that byte, in each place, among lines that are random.
#[test]
fn gather_agrees_on_every_byte() {
    let mut random = Random(0x5851_F42D_4C95_7F2D);
    for place in [0, 8, 16, 24] {
        for byte in 0..=0xFF_u32 {
            for lines in 0..=0xFF_u32 {
                let around = !(0xFF << place);
                let (s, mask) = (random.u32() & around | byte << place, random.mask() & around | lines << place);
                assert_eq!(voltamar::gather(s, mask), plain::gather(s, mask), "gather {s:08X} {mask:08X}");
            }
        }
    }
}

/// A mask with few lines, so that edges miss as well.
fn few(random: &mut Random) -> u32 {
    random.mask() & random.mask() & random.u32()
}

/// Runs both sides, and answers the number and whether it was a hit.
fn both(
    tallies: &mut [Tally; 2],
    got: Result<bool, voltamar::Refusal>,
    want: Result<bool, plain::Refusal>,
    what: impl Fn() -> String,
) -> bool {
    let got = got.map_err(|refusal| (refusal.number, refusal.place));
    let want = want.map_err(|refusal| (refusal.number, refusal.place));
    assert_eq!(got, want, "{}", what());
    tallies[0].count(got.err().map_or(0, |refusal| refusal.0));
    tallies[1].count(want.err().map_or(0, |refusal| refusal.0));
    got == Ok(true)
}

#[test]
fn model_agrees() {
    let mut random = Random(0xDA3E_39CB_94B9_5BDB);
    let mut tallies: [[Tally; 2]; 4] = Default::default();
    let mut hits = [0; 4];
    for _ in 0..ROUNDS {
        let (target, mask) = (random.u32(), random.mask());
        let s = sample(&mut random, &[target, target & mask]);
        let words = if random.one_in(2) {
            plain::term_words(target, mask).to_vec()
        } else {
            let count = count(&mut random, 4);
            make::words(&mut random, count)
        };
        hits[0] +=
            usize::from(both(&mut tallies[0], voltamar::run_term(&words, s), plain::run_term(&words, s), || {
                format!("term {words:08X?} {s:08X}")
            }));

        let [lower, upper, mask] = make::range(&mut random);
        let s = sample(&mut random, &[lower, upper, mask]);
        let words = if random.one_in(2) {
            plain::range_words(lower, upper, mask).to_vec()
        } else {
            let count = count(&mut random, 32);
            make::words(&mut random, count)
        };
        hits[1] +=
            usize::from(both(&mut tallies[1], voltamar::run_range(&words, s), plain::run_range(&words, s), || {
                format!("range {words:08X?} {s:08X}")
            }));

        let lines = few(&mut random);
        let [rise, fall, neither] = make::edge(&mut random).map(|asked| asked & lines);
        let earlier = sample(&mut random, &[rise, fall, neither]);
        let later = sample(&mut random, &[earlier, !earlier, rise, fall]);
        let words = if random.one_in(2) {
            plain::edge_words(rise, fall, neither).to_vec()
        } else {
            let count = count(&mut random, 8);
            make::words(&mut random, count)
        };
        let (got, want) = (voltamar::run_edge(&words, earlier, later), plain::run_edge(&words, earlier, later));
        hits[2] +=
            usize::from(both(&mut tallies[2], got, want, || format!("edge {words:08X?} {earlier:08X} {later:08X}")));

        let sources = random.u32() as u16;
        let words = if random.one_in(2) {
            plain::sum_words(&std::array::from_fn(|_| random.below(10) as u8)).to_vec()
        } else {
            let count = count(&mut random, 6);
            make::words(&mut random, count)
        };
        let (got, want) = (voltamar::run_sum(&words, sources), plain::run_sum(&words, sources));
        hits[3] += usize::from(both(&mut tallies[3], got, want, || format!("sum {words:08X?} {sources:04X}")));
    }
    for tally in tallies.iter().flatten() {
        tally.expect(&[17..=17], ROUNDS / 2, ROUNDS / 50);
    }
    assert!(hits.iter().all(|hits| (ROUNDS / 20..ROUNDS * 9 / 10).contains(hits)), "{hits:?}");
}

/// Every operation at every place of a sum, on all 65,536 patterns of the sources.
#[test]
fn sums_agree_on_all_sources() {
    for code in 0..10u8 {
        let words = plain::sum_words(&std::array::from_fn(|place| (code + 3 * place as u8) % 10));
        for sources in 0..=u16::MAX {
            assert_eq!(voltamar::run_sum(&words, sources).ok(), plain::run_sum(&words, sources).ok());
        }
    }
}

const NOP: u8 = 0;
const AND: u8 = 2;
const OR: u8 = 4;
const NOR: u8 = 5;
const A: u8 = 8;
const B: u8 = 9;

/// The words that the proved compiler sends for a sum.
fn sent(operations: [u8; 11]) -> Vec<u32> {
    let sheet = make::one_section(3, vec![make::record(0, "A SUM", &operations)]);
    let mut commands = [0; voltamar::LONGEST_STREAM];
    let length = voltamar::compile(&sheet, &mut commands).expect("accepted, with room");
    let number = |command: &[u8]| u32::from_le_bytes([command[1], command[2], command[3], command[4]]);
    commands[..length].chunks(5).skip(1).map(number).collect()
}

/// With A as its last operation a sum is its first half, with B its second, whatever the other half says: the same as
/// OR of that half and of nothing.
#[test]
fn final_a_and_b_are_one_half() {
    let mut random = Random(0x2545_F491_4F6C_DD1D);
    let mut both_halves = 0;
    for _ in 0..2_000 {
        let operations: [u8; 11] = std::array::from_fn(|_| random.below(10) as u8);
        let with = |mid1, mid2, last| {
            let mut operations = operations;
            (operations[8], operations[9], operations[10]) = (mid1, mid2, last);
            sent(operations)
        };
        let (mid1, mid2) = (operations[8], operations[9]);
        let (a, first) = (with(mid1, mid2, A), with(mid1, NOP, OR));
        let (b, second) = (with(mid1, mid2, B), with(NOP, mid2, OR));
        assert_eq!((a[0], b[0]), (0x000A, 0x000C));
        for _ in 0..100 {
            let sources = random.u32() as u16;
            let says = |words: &[u32]| voltamar::run_sum(words, sources).expect("six words");
            assert_eq!((says(&a), says(&b)), (says(&first), says(&second)), "{operations:?} {sources:04X}");
            both_halves += usize::from(says(&a) && says(&b));
        }
    }
    assert!(both_halves > 20_000, "{both_halves}");
}

/// One half without the other, as it is still to be had: AND, and the opposite of the second mid. An even code and the
/// odd one behind it are opposites; that of A or B is NOR, with the two pairs that it leaves out set to NOP.
#[test]
fn the_first_half_without_the_second() {
    let mut random = Random(0x9E37_79B9_7F4A_7C15);
    let mut yes = 0;
    for round in 0..2_000 {
        let mut operations: [u8; 11] = std::array::from_fn(|_| random.below(10) as u8);
        operations[9] = (round % 10) as u8;
        let with = |last| sent(std::array::from_fn(|place| if place == 10 { last } else { operations[place] }));
        let (first, second) = (with(A), with(B));
        match operations[9] {
            A => (operations[6], operations[7], operations[9]) = (NOP, NOP, NOR),
            B => (operations[4], operations[5], operations[9]) = (NOP, NOP, NOR),
            code => operations[9] = code ^ 1,
        }
        operations[10] = AND;
        let without = sent(operations);
        for _ in 0..100 {
            let sources = random.u32() as u16;
            let says = |words: &[u32]| voltamar::run_sum(words, sources).expect("six words");
            assert_eq!(says(&without), says(&first) && !says(&second), "{operations:?} {sources:04X}");
            yes += usize::from(says(&without));
        }
    }
    assert!(yes > 20_000, "{yes}");
}
