//! The short calls of both sides behind the same boundary: C functions, called through pointers that the compiler does
//! not know, with pointers for what they hand back. So a difference is one of the bodies. Every answer is a number.
use crate::expert;
use std::hint::black_box;

type Run = unsafe extern "C" fn(*const u32, usize, u32, *mut u8, *mut usize) -> u8;
type RunEdge = unsafe extern "C" fn(*const u32, usize, u32, u32, *mut u8, *mut usize) -> u8;
type RunSum = unsafe extern "C" fn(*const u32, usize, u16, *mut u8, *mut usize) -> u8;
type SumTelling = unsafe extern "C" fn(*const u8, usize, *const u8, usize, *mut u16) -> u8;

#[derive(Clone, Copy)]
pub struct Calls {
    gather: unsafe extern "C" fn(u32, u32) -> u32,
    range_hit: unsafe extern "C" fn(u32, u32, u32, u32) -> bool,
    run_term: Run,
    run_range: Run,
    run_edge: RunEdge,
    run_sum: RunSum,
    sum_telling: SumTelling,
}

extern "C" {
    fn voltamar_gather(sample: u32, mask: u32) -> u32;
    fn voltamar_range_hit(lower: u32, upper: u32, mask: u32, sample: u32) -> bool;
    fn voltamar_run_term(words: *const u32, n: usize, sample: u32, hit: *mut u8, place: *mut usize) -> u8;
    fn voltamar_run_range(words: *const u32, n: usize, sample: u32, hit: *mut u8, place: *mut usize) -> u8;
    fn voltamar_run_edge(words: *const u32, n: usize, e: u32, l: u32, hit: *mut u8, place: *mut usize) -> u8;
    fn voltamar_run_sum(words: *const u32, n: usize, sources: u16, hit: *mut u8, place: *mut usize) -> u8;
    fn voltamar_sum_telling(old: *const u8, n: usize, new: *const u8, k: usize, sources: *mut u16) -> u8;
}

/// The library's calls and plain's.
pub fn both() -> [Calls; 2] {
    let proved = Calls {
        gather: voltamar_gather,
        range_hit: voltamar_range_hit,
        run_term: voltamar_run_term,
        run_range: voltamar_run_range,
        run_edge: voltamar_run_edge,
        run_sum: voltamar_run_sum,
        sum_telling: voltamar_sum_telling,
    };
    let plain = Calls {
        gather: expert::gather,
        range_hit: expert::range_hit,
        run_term: expert::run_term,
        run_range: expert::run_range,
        run_edge: expert::run_edge,
        run_sum: expert::run_sum,
        sum_telling: expert::sum_telling,
    };
    black_box([proved, plain])
}

/// Number, hit and place as one number.
#[inline(always)]
fn run(call: impl FnOnce(*mut u8, *mut usize) -> u8) -> u64 {
    let (mut hit, mut place) = (0, 0);
    let number = call(&mut hit, &mut place);
    u64::from(number) | u64::from(hit) << 8 | (place as u64) << 16
}

// SAFETY, for every call below: a slice gives its own pointer and its own length, the other pointers are to locals, and
// nothing is kept after the answer.
impl Calls {
    pub fn gather(&self, sample: u32, mask: u32) -> u64 {
        unsafe { (self.gather)(sample, mask) }.into()
    }

    pub fn range_hit(&self, [lower, upper, mask]: [u32; 3], sample: u32) -> u64 {
        unsafe { (self.range_hit)(lower, upper, mask, sample) }.into()
    }

    pub fn run_term(&self, words: &[u32], sample: u32) -> u64 {
        run(|hit, place| unsafe { (self.run_term)(words.as_ptr(), words.len(), sample, hit, place) })
    }

    pub fn run_range(&self, words: &[u32], sample: u32) -> u64 {
        run(|hit, place| unsafe { (self.run_range)(words.as_ptr(), words.len(), sample, hit, place) })
    }

    pub fn run_edge(&self, words: &[u32], earlier: u32, later: u32) -> u64 {
        run(|hit, place| unsafe { (self.run_edge)(words.as_ptr(), words.len(), earlier, later, hit, place) })
    }

    pub fn run_sum(&self, words: &[u32], sources: u16) -> u64 {
        run(|hit, place| unsafe { (self.run_sum)(words.as_ptr(), words.len(), sources, hit, place) })
    }

    /// Number and sources.
    pub fn sum_telling(&self, old: &[u8], new: &[u8]) -> u64 {
        let mut sources = 0;
        let number = unsafe { (self.sum_telling)(old.as_ptr(), old.len(), new.as_ptr(), new.len(), &mut sources) };
        u64::from(number) | u64::from(sources) << 8
    }
}
