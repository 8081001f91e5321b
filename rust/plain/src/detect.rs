//! The detectors, sums and states: plain rules of a hit, chain words, the model that runs words, and the way back.
use crate::{refused, Refusal};

// ---- plain rules of a hit ----

/// The sample's masked lines, the lowest line at bit 0.
#[inline]
pub fn gather(sample: u32, mask: u32) -> u32 {
    let (mut number, mut rank, mut left) = (0, 0, mask);
    while left != 0 {
        number |= (sample >> left.trailing_zeros() & 1) << rank;
        rank += 1;
        left &= left - 1; // without its lowest line
    }
    number
}

/// The way back: the number's bits on the masked lines, bit 0 on the lowest. Of two numbers the greater one gives the
/// greater sample.
pub fn scatter(number: u32, mask: u32) -> u32 {
    let (mut sample, mut left, mut lines) = (0, number, mask);
    while lines != 0 {
        let lowest = lines & lines.wrapping_neg();
        sample |= lowest * (left & 1);
        left >>= 1;
        lines &= lines - 1;
    }
    sample
}

#[inline]
pub fn term_hit(target: u32, mask: u32, sample: u32) -> bool {
    (sample ^ target) & mask == 0
}

#[inline]
pub fn range_hit(lower: u32, upper: u32, mask: u32, sample: u32) -> bool {
    let number = gather(sample, mask);
    lower <= number && number <= upper
}

#[inline]
pub fn edge_hit(rise: u32, fall: u32, neither: u32, earlier: u32, later: u32) -> bool {
    rise & !earlier & later != 0 || fall & earlier & !later != 0 || neither & !(earlier ^ later) != 0
}

// ---- chain words, in sending order ----

/// The addresses at which each of a table's four lines is 1.
const LINE: [u32; 4] = [0xAAAA, 0xCCCC, 0xF0F0, 0xFF00];

/// A term's table for four lines: bit n answers whether address n has the target's value on the masked lines.
fn term_table(target: u32, mask: u32) -> u32 {
    let mut table = 0xFFFF;
    for (line, ones) in LINE.into_iter().enumerate() {
        let differs = ones ^ ((target >> line & 1) * 0xFFFF);
        table &= !(differs * (mask >> line & 1));
    }
    table
}

pub fn term_words(target: u32, mask: u32) -> [u32; 4] {
    let mut words = [0; 4];
    for table in 0..8 {
        let low = 4 * table;
        // lines 3 down to 0 end in the low half of the last word
        words[3 - table / 2] |= term_table(target >> low, mask >> low) << (table % 2 * 16);
    }
    words
}

/// One chain of a range: the masked lines take the value's bits, the lowest line bit 0. A table is 0xFFFF without a
/// bit, 0xAAAA for a clear one, 0x5555 for a set one.
fn chain(value: u32, mask: u32) -> [u32; 16] {
    let set = scatter(value, mask);
    let clear = mask & !set;
    let table = |line: usize| 0xFFFF - 0xAAAA * (set >> line & 1) - 0x5555 * (clear >> line & 1);
    // line 31 is the top one of the first word
    std::array::from_fn(|word| table(31 - 2 * word) << 16 | table(30 - 2 * word))
}

/// Lower chain, then upper chain.
pub fn range_words(lower: u32, upper: u32, mask: u32) -> [u32; 32] {
    let mut words = [0; 32];
    words[..16].copy_from_slice(&chain(!lower.wrapping_sub(1), mask));
    words[16..].copy_from_slice(&chain(!upper, mask));
    words
}

const RISE: [u32; 2] = [0x0A0A, 0x00CC]; // lower line, upper line
const FALL: [u32; 2] = [0x5050, 0x3300];
const NEITHER: [u32; 2] = [0xA5A5, 0xCC33];

pub fn edge_words(rise: u32, fall: u32, neither: u32) -> [u32; 8] {
    let mut words = [0; 8];
    for line in 0..32 {
        let asked = |lines: u32, event: [u32; 2]| (lines >> line & 1) * event[line % 2];
        let table = asked(rise, RISE) | asked(fall, FALL) | asked(neither, NEITHER);
        // two lines to a table, four to a word, the first word has lines 31 and 30 in its high half
        words[7 - line / 4] |= table << (line % 4 / 2 * 16);
    }
    words
}

//                      NOP     ANY     AND     NAND    OR      NOR     XOR     NXOR    A       B
pub(crate) const PAIR: [u32; 10] = [0x0000, 0xFFFF, 0x8000, 0x7FFF, 0xF888, 0x0777, 0x7888, 0x8777, 0x8888, 0xF000];
const MID: [u32; 10] = [0x0000, 0xFFFF, 0x8000, 0x7FFF, 0xFFFE, 0x0001, 0x0116, 0xFEE9, 0xEEEE, 0xFFF0];
pub(crate) const FINAL: [u32; 10] = [0x0000, 0xFFFF, 0x0008, 0x0007, 0x000E, 0x0001, 0x0006, 0x0009, 0x000A, 0x000C];

/// The operations are ab, c, d, e, fg, h, i, j, mid1, mid2, final, each 0 to 9.
pub fn sum_words(operations: &[u8; 11]) -> [u32; 6] {
    let pair = |i: usize| PAIR[operations[i] as usize];
    let mid = |i: usize| MID[operations[i] as usize];
    [
        FINAL[operations[10] as usize],
        mid(9) << 16 | mid(8),
        pair(7) << 16 | pair(6),
        pair(5) << 16 | pair(4),
        pair(3) << 16 | pair(2),
        pair(1) << 16 | pair(0),
    ]
}

/// A state's one word holds no tables: the number from bit 0, the else state from bit 20, a bit for each flag from 24.
/// The flags are stop, clear and start, each for timer 1 and then timer 2, trigger, last. Every field fits its bits.
pub fn state_word(number: u32, else_state: u8, flags: [u8; 8]) -> u32 {
    let flags = (24..).zip(flags).fold(0, |word, (bit, flag)| word | u32::from(flag) << bit);
    number | u32::from(else_state) << 20 | flags
}

// ---- the model ----

/// The words as an array, or 17 with the count needed.
fn counted<const N: usize>(words: &[u32]) -> Result<&[u32; N], Refusal> {
    match words.try_into() {
        Ok(words) => Ok(words),
        Err(_) => refused(17, N),
    }
}

/// The half word: 0 the low one, 1 the high one.
fn half(word: u32, which: usize) -> u32 {
    word >> (16 * which) & 0xFFFF
}

#[inline]
pub fn run_term(words: &[u32], sample: u32) -> Result<bool, Refusal> {
    let words = counted::<4>(words)?;
    let mut all = 1; // no early exit: a look is cheaper than a branch that is guessed wrong
    for table in 0..8 {
        all &= half(words[3 - table / 2], table % 2) >> (sample >> (4 * table) & 15);
    }
    Ok(all & 1 == 1)
}

/// The carry that leaves line 31: the value of the highest line whose table answers 0, for a table that answers 1 passes
/// the carry on. The words go from line 31 down, two lines to a word.
fn carry(words: &[u32], sample: u32) -> u32 {
    for (i, word) in words.iter().enumerate() {
        let (odd, even) = (sample >> (31 - 2 * i) & 1, sample >> (30 - 2 * i) & 1);
        let (pass_odd, pass_even) = (half(*word, 1) >> odd & 1, half(*word, 0) >> even & 1);
        if pass_odd & pass_even == 0 {
            return if pass_odd == 0 { odd } else { even };
        }
    }
    0
}

#[inline]
pub fn run_range(words: &[u32], sample: u32) -> Result<bool, Refusal> {
    let words = counted::<32>(words)?;
    Ok(carry(&words[..16], sample) == 1 && carry(&words[16..], sample) == 0)
}

#[inline]
pub fn run_edge(words: &[u32], earlier: u32, later: u32) -> Result<bool, Refusal> {
    let words = counted::<8>(words)?;
    // two tables to a word: lines are the four of a word, the first word's the highest
    Ok(words.iter().enumerate().any(|(i, &word)| {
        let (earlier, later) = (earlier >> (28 - 4 * i), later >> (28 - 4 * i));
        let high = half(word, 1) >> (earlier & 12 | later >> 2 & 3);
        let low = half(word, 0) >> (earlier << 2 & 12 | later & 3);
        (high | low) & 1 == 1
    }))
}

/// The two sources of each pair: ab, c, d, e, fg, h, i, j.
const SOURCES: [(u32, u32); 8] = [(0, 1), (2, 10), (3, 12), (4, 14), (5, 6), (7, 11), (8, 13), (9, 15)];

#[inline]
pub fn run_sum(words: &[u32], sources: u16) -> Result<bool, Refusal> {
    let words = counted::<6>(words)?;
    let source = |n: u32| u32::from(sources) >> n & 1;
    let mut mids = [0; 2]; // the inputs of mid1 and of mid2
    for (pair, (a, b)) in SOURCES.into_iter().enumerate() {
        let address = 3 * (source(a) | source(b) << 2);
        let answer = half(words[5 - pair / 2], pair % 2) >> address & 1;
        mids[pair / 4] |= answer << (pair % 4);
    }
    let mid1 = half(words[1], 0) >> mids[0] & 1;
    let mid2 = half(words[1], 1) >> mids[1] & 1;
    Ok(half(words[0], 0) >> (mid1 + 2 * mid2) & 1 == 1)
}

// ---- the way back: the accepted description that writes the words, if there is one ----

/// Target (cut to the mask) and mask.
pub fn read_term(words: &[u32; 4]) -> Option<(u32, u32)> {
    let (mut target, mut mask) = (0, 0);
    for table in 0..8 {
        let lut = half(words[3 - table / 2], table % 2);
        if lut == 0 {
            return None;
        }
        // the lowest address that hits has the target; a line is masked if changing it there ends the hit
        let t = lut.trailing_zeros();
        let mut m = 0;
        for line in 0..4 {
            if lut >> (t ^ 1 << line) & 1 == 0 {
                m |= 1 << line;
            }
        }
        if term_table(t, m) != lut {
            return None;
        }
        target |= t << (4 * table);
        mask |= m << (4 * table);
    }
    Some((target, mask))
}

/// The mask and the value of one chain.
fn read_chain(words: &[u32]) -> Option<(u32, u32)> {
    let (mut mask, mut value, mut rank) = (0, 0, 0);
    for line in 0..32 {
        let bit = match half(words[15 - line / 2], line % 2) {
            0xFFFF => continue,
            0xAAAA => 0,
            0x5555 => 1,
            _ => return None,
        };
        mask |= 1 << line;
        value |= bit << rank;
        rank += 1;
    }
    Some((mask, value))
}

/// Lower, upper, mask.
pub fn read_range(words: &[u32; 32]) -> Option<(u32, u32, u32)> {
    let (mask, below_lower) = read_chain(&words[..16])?;
    let (upper_mask, not_upper) = read_chain(&words[16..])?;
    let biggest = (1u64 << mask.count_ones()) - 1;
    let lower = (!u64::from(below_lower) & biggest) + 1;
    let upper = !u64::from(not_upper) & biggest;
    (mask == upper_mask && lower <= upper).then_some((lower as u32, upper as u32, mask))
}

/// Rise, fall, neither.
pub fn read_edge(words: &[u32; 8]) -> Option<(u32, u32, u32)> {
    let (mut rise, mut fall, mut neither) = (0, 0, 0);
    for line in 0..32 {
        let lut = half(words[7 - line / 4], line % 4 / 2);
        // an event is asked for if its whole word is in the table: the wishes of the other line alone do not fill that
        // word, since they leave an event out
        let asked = |event: [u32; 2]| u32::from(lut & event[line % 2] == event[line % 2]) << line;
        rise |= asked(RISE);
        fall |= asked(FALL);
        neither |= asked(NEITHER);
    }
    let accepted = rise & fall & neither == 0; // no table FFFF
    (accepted && edge_words(rise, fall, neither) == *words).then_some((rise, fall, neither))
}

/// The code whose word this is; the words of a table are all different.
fn code(table: &[u32; 10], half: u32) -> Option<u8> {
    let mut found = 10;
    for (code, &word) in (0..).zip(table) {
        found = if word == half { code } else { found };
    }
    (found < 10).then_some(found)
}

pub fn read_sum(words: &[u32; 6]) -> Option<[u8; 11]> {
    let mut operations = [0; 11];
    for pair in 0..8 {
        operations[pair] = code(&PAIR, half(words[5 - pair / 2], pair % 2))?;
    }
    operations[8] = code(&MID, half(words[1], 0))?;
    operations[9] = code(&MID, half(words[1], 1))?;
    operations[10] = code(&FINAL, words[0])?; // the high half must be 0
    Some(operations)
}

/// Number, else state and flags: every word is a state's.
pub fn read_state(word: u32) -> (u32, u8, [u8; 8]) {
    (word & 0xF_FFFF, (word >> 20 & 15) as u8, std::array::from_fn(|flag| (word >> (24 + flag) & 1) as u8))
}
