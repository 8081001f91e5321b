//! Two sums told apart: by trying all patterns of the sixteen sources, and by halves. Either way finds the least one on
//! which one sum hits and the other misses.
use crate::detect::{FINAL, PAIR};
use crate::{run_sum, sum_words};

/// Runs the words of both sums on every pattern, from 0 up, until one tells the two apart.
pub fn scan_telling_sum(old: &[u8; 11], new: &[u8; 11]) -> Option<u16> {
    let (old, new) = (sum_words(old), sum_words(new));
    (0..=u16::MAX).find(|&sources| run_sum(&old, sources) != run_sum(&new, sources))
}

/// The same by halves. A mid sees eight of the sources, and no source is seen by both: so it is enough to know, of each
/// half, the least pattern for each of the four classes that its old and its new mid can answer, and to ask the two
/// final operations for the sixteen pairs of classes. A half's 256 patterns are asked at once, a bit for each, and no
/// branch depends on an answer.
#[inline]
pub fn telling_sum(old: &[u8; 11], new: &[u8; 11]) -> Option<u16> {
    let first = classes(mid_answers(old, 0), mid_answers(new, 0)).map(|pattern| sources(0, pattern));
    let second = classes(mid_answers(old, 1), mid_answers(new, 1)).map(|pattern| sources(1, pattern));
    let (old_hits, new_hits) = (&OLD_HITS[usize::from(old[10])], &NEW_HITS[usize::from(new[10])]);
    let mut least = NONE;
    for pair in 0..16 {
        let alike = old_hits[pair] ^ new_hits[pair] ^ NONE;
        least = least.min(first[pair / 4] | second[pair % 4] | alike);
    }
    (least < NONE).then_some(least as u16)
}

/// Above every pattern: a number with this bit is none.
const NONE: u32 = 1 << 16;

/// A set of the patterns of eight sources: pattern n is bit n % 64 of word n / 64.
pub type Set = [u64; 4];

/// The sources of a half's pattern, which has its eight in rising order: in the first half 0 to 4, 10, 12, 14, in the
/// second 5 to 9, 11, 13, 15. So a lesser pattern is lesser sources too, and the pairs have the same bits in both.
fn sources(half: usize, pattern: u32) -> u32 {
    let low = (pattern & 0x1F) << (5 * half);
    let high = (pattern & 0x20) << 5 | (pattern & 0x40) << 6 | (pattern & 0x80) << 7;
    pattern & NONE | low | high << half
}

/// The bits of each pair's two sources in a half's pattern.
const PAIR_BITS: [(usize, usize); 4] = [(0, 1), (2, 5), (3, 6), (4, 7)];

/// For each pair of a half and each operation, the patterns to which it says yes.
static PAIR_ANSWERS: [[Set; 10]; 4] = {
    let mut answers = [[[0; 4]; 10]; 4];
    let mut at = 0;
    while at < 4 * 10 * 256 {
        let (pair, code, pattern) = (at / 2560, at / 256 % 10, at % 256);
        let (a, b) = PAIR_BITS[pair];
        let address = 3 * (pattern >> a & 1) + 12 * (pattern >> b & 1);
        answers[pair][code][pattern / 64] |= (PAIR[code] as u64 >> address & 1) << (pattern % 64);
        at += 1;
    }
    answers
};

/// A mid says yes where one of the chosen things is true of its four pairs, or, where `not` is chosen, none of them is.
/// What is chosen is all ones, else 0: it costs no branch.
struct Mid {
    first: u64, // one or both of the first two say yes
    last: u64,  // one or both of the last two
    all: u64,
    one: u64, // exactly one
    not: u64,
}

const YES: u64 = u64::MAX;
const NOP: Mid = Mid { first: 0, last: 0, all: 0, one: 0, not: 0 };

/// By code.
static MIDS: [Mid; 10] = [
    NOP,
    Mid { not: YES, ..NOP },
    Mid { all: YES, ..NOP },
    Mid { all: YES, not: YES, ..NOP },
    Mid { first: YES, last: YES, ..NOP },
    Mid { first: YES, last: YES, not: YES, ..NOP },
    Mid { one: YES, ..NOP },
    Mid { one: YES, not: YES, ..NOP },
    Mid { first: YES, ..NOP },
    Mid { last: YES, ..NOP },
];

/// The patterns to which the mid of a half says yes, the half's eight sources in rising order.
#[inline(always)] // here and below: with the half known the compiler does better
pub fn mid_answers(operations: &[u8; 11], half: usize) -> Set {
    let pairs: [&Set; 4] = std::array::from_fn(|pair| {
        let code = operations[4 * half + pair];
        &PAIR_ANSWERS[pair][usize::from(code)]
    });
    let mid = &MIDS[usize::from(operations[8 + half])];
    std::array::from_fn(|word| {
        let [a, b, c, d] = pairs.map(|pair| pair[word]);
        let (first, last, all) = (a | b, c | d, a & b & c & d);
        let one = (a ^ b) & !last | (c ^ d) & !first;
        (first & mid.first | last & mid.last | all & mid.all | one & mid.one) ^ mid.not
    })
}

/// The least pattern of each class: no mid says yes, the old one alone, the new one alone, both.
#[inline(always)]
fn classes(old: Set, new: Set) -> [u32; 4] {
    let class = |of: fn(u64, u64) -> u64| least(std::array::from_fn(|word| of(old[word], new[word])));
    [
        class(|old, new| !(old | new)),
        class(|old, new| old & !new),
        class(|old, new| new & !old),
        class(|old, new| old & new),
    ]
}

fn least(set: Set) -> u32 {
    let mut least = NONE;
    for word in (0..4).rev() {
        if set[word] != 0 {
            least = 64 * word as u32 + set[word].trailing_zeros();
        }
    }
    least
}

/// For each final operation and each pair of classes: NONE where the old or the new sum hits, 0 where it misses.
static OLD_HITS: [[u32; 16]; 10] = final_hits(0);
static NEW_HITS: [[u32; 16]; 10] = final_hits(1);

/// Of a pair's four bits the higher two are the first half's class, the lower two the second half's; of a class the
/// lower bit is the old mid's answer, the higher the new one's.
const fn final_hits(new: usize) -> [[u32; 16]; 10] {
    let mut hits = [[0; 16]; 10];
    let mut at = 0;
    while at < 10 * 16 {
        let (code, pair) = (at / 16, at % 16);
        let (mid1, mid2) = (pair >> (2 + new) & 1, pair >> new & 1);
        hits[code][pair] = (FINAL[code] >> (mid1 + 2 * mid2) & 1) * NONE;
        at += 1;
    }
    hits
}
