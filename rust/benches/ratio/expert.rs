//! The plain side of the short calls as C functions. Where `plain` has the body that a reader sees through first and a
//! faster one is known, the faster one stands here.
use plain::Refusal;
use std::slice::from_raw_parts;

/// The sample's masked lines a nibble at a time: both nibbles together are the place of the packed lines in a table.
pub extern "C" fn gather(sample: u32, mask: u32) -> u32 {
    let (mut number, mut rank) = (0, 0);
    for low in (0..32).step_by(4) {
        let (lines, nibble) = (mask >> low & 15, sample >> low & 15);
        number |= u32::from(PACKED[(16 * lines + nibble) as usize]) << (rank & 31);
        rank += lines.count_ones();
    }
    number
}

/// By the mask's nibble and the sample's.
static PACKED: [u8; 256] = {
    let (mut packed, mut at) = ([0; 256], 0usize);
    while at < 4 * 256 {
        let (both, line) = (at / 4, at % 4);
        let (mask, sample) = (both / 16, both % 16);
        let rank = (mask & ((1 << line) - 1)).count_ones();
        packed[both] |= ((mask >> line & sample >> line & 1) << rank) as u8;
        at += 1;
    }
    packed
};

pub extern "C" fn range_hit(lower: u32, upper: u32, mask: u32, sample: u32) -> bool {
    let number = gather(sample, mask);
    lower <= number && number <= upper
}

/// The words lent, if there are so many; else 17 is handed over.
unsafe fn lent<'a, const N: usize>(
    words: *const u32,
    n: usize,
    hit: *mut u8,
    place: *mut usize,
) -> Option<&'a [u32; N]> {
    *hit = 0;
    *place = if n == N { 0 } else { N };
    from_raw_parts(words, n).try_into().ok()
}

/// Hands over what a run answers.
unsafe fn hand(answer: Result<bool, Refusal>, hit: *mut u8, place: *mut usize) -> u8 {
    match answer {
        Ok(is_hit) => (*hit, *place) = (is_hit.into(), 0),
        Err(refusal) => (*hit, *place) = (0, refusal.place),
    }
    answer.err().map_or(0, |refusal| refusal.number)
}

pub unsafe extern "C" fn run_term(words: *const u32, n: usize, sample: u32, hit: *mut u8, place: *mut usize) -> u8 {
    hand(plain::run_term(from_raw_parts(words, n), sample), hit, place)
}

pub unsafe extern "C" fn run_range(words: *const u32, n: usize, sample: u32, hit: *mut u8, place: *mut usize) -> u8 {
    let Some(words) = lent::<32>(words, n, hit, place) else { return 17 };
    let (lower, upper) = words.split_at(16);
    let carries = |words: &[u32]| carries(words.try_into().expect("sixteen words"), sample);
    *hit = (carries(lower) & !carries(upper)).into();
    0
}

/// Whether the carry that leaves line 31 is 1: the highest line whose table answers 0 decides by its value. Of two
/// numbers without a line in common the greater one has the highest line.
fn carries(words: &[u32; 16], sample: u32) -> bool {
    // the two lowest answers of each table: those of eight words fit in one, the upper tables' in its upper half
    let pack = |from: usize| (0..8).fold(0, |all, k| all | (words[from + k] & 0x0003_0003) << (14 - 2 * k));
    let (high, low) = (pack(0), pack(8));
    let (even, odd) = (high << 16 | low & 0xFFFF, high & 0xFFFF_0000 | low >> 16);
    let at_0 = even & 0x5555_5555 | (odd & 0x5555_5555) << 1;
    let at_1 = even >> 1 & 0x5555_5555 | odd & 0xAAAA_AAAA;
    sample & !at_1 > !sample & !at_0
}

pub unsafe extern "C" fn run_edge(words: *const u32, n: usize, e: u32, l: u32, hit: *mut u8, place: *mut usize) -> u8 {
    let Some(words) = lent::<8>(words, n, hit, place) else { return 17 };
    // an address to a nibble: those of the lower and of the upper table of each word
    let lower = e << 2 & 0xCCCC_CCCC | l & 0x3333_3333;
    let upper = e & 0xCCCC_CCCC | l >> 2 & 0x3333_3333;
    let answer = |i: usize| words[i] >> (lower >> (28 - 4 * i) & 15) | words[i] >> 16 >> (upper >> (28 - 4 * i) & 15);
    *hit = ((0..8).fold(0, |any, i| any | answer(i)) & 1) as u8;
    0
}

pub unsafe extern "C" fn run_sum(words: *const u32, n: usize, sources: u16, hit: *mut u8, place: *mut usize) -> u8 {
    hand(plain::run_sum(from_raw_parts(words, n), sources), hit, place)
}

/// Refuses with 10 what is not eleven operations.
pub unsafe extern "C" fn sum_telling(old: *const u8, n: usize, new: *const u8, k: usize, sources: *mut u16) -> u8 {
    *sources = 0;
    let sum = |bytes: *const u8, n| <&[u8; 11]>::try_from(from_raw_parts(bytes, n)).ok();
    let accepted = |sum: &&[u8; 11]| sum.iter().fold(true, |all, &code| all & (code <= 9));
    let (Some(old), Some(new)) = (sum(old, n).filter(accepted), sum(new, k).filter(accepted)) else { return 10 };
    let told = plain::telling_sum(old, new);
    *sources = told.unwrap_or(0);
    told.is_some().into()
}
