//! Safe calls over the proved static library (crates/voltamar_c). No call asks anything of its caller: what the C
//! header asks, the borrow checker sees to. A refused call leaves `out` as it was; a call that is done leaves what is
//! beyond the length it answers.
//!
//! ```
//! // a sheet with one term: slot 0, a label of eight bytes, target 5, mask F; no range, no edge, no sum, no state
//! let sheet = b"\x01\x00DOORLOCK\x05\x00\x00\x00\x0F\x00\x00\x00\x00\x00\x00\x00";
//! let mut out = [0; voltamar::LONGEST_STREAM];
//! let length = voltamar::compile(sheet, &mut out)?;
//! assert_eq!(length, 25);
//! assert_eq!(out[..5], [0x9E, 0x20, 0, 0, 0]);
//! # Ok::<(), voltamar::Refusal>(())
//! ```
use std::error::Error;
use std::fmt;

mod lengths;
pub use lengths::{LABEL, LONGEST_NOTICE, LONGEST_SHEET, LONGEST_STREAM, SECTIONS};

/// The most samples that one call of [`bench()`] takes.
pub const MOST_SAMPLES: usize = 4096;

/// A refusal: its number, and its place (for 12 the bytes needed, of [`bench()`] the words; for 17 the words needed;
/// for 20 the most samples; of [`sum_telling`] 0).
#[derive(Clone, Copy, Debug, PartialEq, Eq)]
pub struct Refusal {
    pub number: u8,
    pub place: usize,
}

impl Refusal {
    /// What the number means, in a few words.
    pub fn meaning(&self) -> &'static str {
        match self.number {
            1 => "count or record incomplete",
            2 => "count above the section's most",
            3 => "slot too big",
            4 => "slot not rising",
            5 => "bad label byte",
            6 => "lower bound is 0",
            7 => "lower bound above upper",
            8 => "upper bound too big for the mask's lines",
            9 => "rise, fall and neither together on a line",
            10 => "operation above 9",
            11 => "bytes left over",
            12 => "output too short (the place is what is needed)",
            13 => "stream ends inside a command or item",
            14 => "opcode other than the one due",
            15 => "address unknown, not rising, or not the one due",
            16 => "words that no accepted description writes",
            17 => "wrong word count (the place is the count needed)",
            18 => "a state's field too big for its place",
            19 => "label the same as an earlier one of its section",
            20 => "too many samples (the place is the most)",
            24 => "state above 15, or count not below its number",
            _ => "not a refusal's number",
        }
    }
}

/// The line that the command line says of a refusal, without the record's part.
///
/// ```
/// let refusal = voltamar::check(&[]).unwrap_err();
/// assert_eq!(refusal.to_string(), "refused 1 at 0: count or record incomplete");
/// ```
impl fmt::Display for Refusal {
    fn fmt(&self, f: &mut fmt::Formatter<'_>) -> fmt::Result {
        write!(f, "refused {} at {}: {}", self.number, self.place, self.meaning())
    }
}

impl Error for Refusal {}

/// A refused notice: the sheet that the refusal is of, or the bytes needed (12 is of neither).
#[derive(Clone, Copy, Debug, PartialEq, Eq)]
pub enum NoticeRefusal {
    Old(Refusal),
    New(Refusal),
    Short { needed: usize },
}

impl fmt::Display for NoticeRefusal {
    fn fmt(&self, f: &mut fmt::Formatter<'_>) -> fmt::Result {
        match self {
            NoticeRefusal::Old(refusal) => write!(f, "old sheet: {refusal}"),
            NoticeRefusal::New(refusal) => write!(f, "new sheet: {refusal}"),
            NoticeRefusal::Short { needed } => Refusal { number: 12, place: *needed }.fmt(f),
        }
    }
}

impl Error for NoticeRefusal {}

/// The library's calls as they are; include/voltamar.h says what each promises and asks.
mod raw {
    extern "C" {
        pub fn voltamar_check(sheet: *const u8, n: usize, place: *mut usize) -> u8;
        pub fn voltamar_section(sheet: *const u8, n: usize, number: u8, start: *mut usize, length: *mut usize) -> u8;
        pub fn voltamar_compile(sheet: *const u8, n: usize, out: *mut u8, room: usize, place: *mut usize) -> u8;
        pub fn voltamar_read(stream: *const u8, n: usize, out: *mut u8, room: usize, place: *mut usize) -> u8;
        pub fn voltamar_notice(
            old: *const u8,
            n: usize,
            new: *const u8,
            k: usize,
            out: *mut u8,
            room: usize,
            which: *mut u8,
            place: *mut usize,
        ) -> u8;
        pub fn voltamar_gather(sample: u32, mask: u32) -> u32;
        pub fn voltamar_run_term(words: *const u32, n: usize, sample: u32, hit: *mut u8, place: *mut usize) -> u8;
        pub fn voltamar_run_range(words: *const u32, n: usize, sample: u32, hit: *mut u8, place: *mut usize) -> u8;
        pub fn voltamar_run_edge(
            words: *const u32,
            n: usize,
            earlier: u32,
            later: u32,
            hit: *mut u8,
            place: *mut usize,
        ) -> u8;
        pub fn voltamar_run_sum(words: *const u32, n: usize, sources: u16, hit: *mut u8, place: *mut usize) -> u8;
        pub fn voltamar_sum_telling(
            old_ops: *const u8,
            n: usize,
            new_ops: *const u8,
            k: usize,
            sources: *mut u16,
        ) -> u8;
        pub fn voltamar_term_hit(target: u32, mask: u32, sample: u32) -> bool;
        pub fn voltamar_range_hit(lower: u32, upper: u32, mask: u32, sample: u32) -> bool;
        pub fn voltamar_edge_hit(rise: u32, fall: u32, neither: u32, earlier: u32, later: u32) -> bool;
        pub fn voltamar_bench(
            sheet: *const u8,
            n: usize,
            samples: *const u32,
            k: usize,
            run: *mut u32,
            run_words: usize,
            out: *mut u32,
            room: usize,
            place: *mut usize,
        ) -> u8;
    }
}

// SAFETY, for every call below: a slice gives its own pointer and its own length, a `&mut` overlaps nothing else, the
// other pointers are to locals, and the library keeps nothing after it answers.

/// The answer by its number: done with what is given, or refused at the place.
fn answer<T>(number: u8, place: usize, done: T) -> Result<T, Refusal> {
    match number {
        0 => Ok(done),
        number => Err(Refusal { number, place }),
    }
}

/// Judges a sheet.
///
/// ```
/// assert_eq!(voltamar::check(&[0; voltamar::SECTIONS]), Ok(()));
/// assert_eq!(voltamar::check(&[11]), Err(voltamar::Refusal { number: 2, place: 0 }));
/// ```
#[inline]
pub fn check(sheet: &[u8]) -> Result<(), Refusal> {
    let mut place = 0;
    let number = unsafe { raw::voltamar_check(sheet.as_ptr(), sheet.len(), &mut place) };
    answer(number, place, ())
}

/// The part of the sheet that holds one section's records, without the count: 0 terms, 1 ranges, 2 edges, 3 sums,
/// 4 states. It is empty for a number above 4. A refused sheet gives what [`check`] gives.
///
/// ```
/// let sheet = b"\x01\x00DOORLOCK\x05\x00\x00\x00\x0F\x00\x00\x00\x00\x00\x00\x00";
/// assert_eq!(voltamar::section(sheet, 0), Ok(&sheet[1..18]));
/// assert_eq!(voltamar::section(sheet, 5), Ok(&[][..]));
/// assert_eq!(voltamar::section(&sheet[..9], 3), Err(voltamar::Refusal { number: 1, place: 1 }));
/// ```
#[inline]
pub fn section(sheet: &[u8], number: u8) -> Result<&[u8], Refusal> {
    let (mut start, mut length) = (0, 0);
    match unsafe { raw::voltamar_section(sheet.as_ptr(), sheet.len(), number, &mut start, &mut length) } {
        0 => Ok(&sheet[start..][..length]),
        _ => check(sheet).map(|()| &sheet[..0]),
    }
}

/// Writes a sheet's commands to the start of `out` and answers their length. The crate's first example shows a call.
#[inline]
pub fn compile(sheet: &[u8], out: &mut [u8]) -> Result<usize, Refusal> {
    let mut place = 0;
    let number = unsafe { raw::voltamar_compile(sheet.as_ptr(), sheet.len(), out.as_mut_ptr(), out.len(), &mut place) };
    answer(number, place, place)
}

/// Writes the sheet that a command stream sets up to the start of `out` and answers its length. Targets are cut to
/// their masks. A label is the letter of its section (T, R, E, S, Q), the slot in two digits, and spaces.
///
/// ```
/// let mut out = [0; voltamar::LONGEST_SHEET];
/// assert_eq!(voltamar::read(&[0x9E, 15, 0, 0, 0, 0x9F, 1, 0, 0, 0], &mut out), Ok(27)); // a state in slot 15
/// assert_eq!(out[4..18], *b"\x01\x0FQ15     \x01\x00\x00\x00");
/// assert_eq!(voltamar::read(&[], &mut out), Ok(voltamar::SECTIONS)); // an empty stream gives nothing but counts of 0
/// assert_eq!(voltamar::read(&[0x9F, 0, 0, 0, 0], &mut out), Err(voltamar::Refusal { number: 14, place: 0 }));
/// ```
#[inline]
pub fn read(stream: &[u8], out: &mut [u8]) -> Result<usize, Refusal> {
    let mut place = 0;
    let number = unsafe { raw::voltamar_read(stream.as_ptr(), stream.len(), out.as_mut_ptr(), out.len(), &mut place) };
    answer(number, place, place)
}

/// Writes the alteration notice of two sheets to the start of `out` and answers its length.
///
/// ```
/// let old = b"\x01\x00DOORLOCK\x05\x00\x00\x00\x0F\x00\x00\x00\x00\x00\x00\x00";
/// let new = b"\x01\x00DOORLK  \x07\x00\x00\x00\x0F\x00\x00\x00\x00\x00\x00\x00";
/// let mut out = [0; voltamar::LONGEST_NOTICE];
/// let length = voltamar::notice(old, new, &mut out)?;
/// assert_eq!(&out[..length], b"TERM 00 NAME\nTERM 00 ALTR 00000005\n");
/// # Ok::<(), voltamar::NoticeRefusal>(())
/// ```
#[inline]
pub fn notice(old: &[u8], new: &[u8], out: &mut [u8]) -> Result<usize, NoticeRefusal> {
    let (mut which, mut place) = (0, 0);
    let number = unsafe {
        raw::voltamar_notice(
            old.as_ptr(),
            old.len(),
            new.as_ptr(),
            new.len(),
            out.as_mut_ptr(),
            out.len(),
            &mut which,
            &mut place,
        )
    };
    match (number, which) {
        (0, _) => Ok(place),
        (_, 1) => Err(NoticeRefusal::Old(Refusal { number, place })),
        (_, 2) => Err(NoticeRefusal::New(Refusal { number, place })),
        _ => Err(NoticeRefusal::Short { needed: place }),
    }
}

/// The sample's masked lines, the lowest line at bit 0.
///
/// ```
/// assert_eq!(voltamar::gather(0x0880, 0x8A80), 5);
/// ```
#[inline]
pub fn gather(sample: u32, mask: u32) -> u32 {
    unsafe { raw::voltamar_gather(sample, mask) }
}

/// Runs a term's four chain words on a sample.
///
/// ```
/// assert_eq!(voltamar::run_term(&[!0, !0, !0, 0xFFFF_0020], 5), Ok(true));
/// assert_eq!(voltamar::run_term(&[!0; 3], 5), Err(voltamar::Refusal { number: 17, place: 4 }));
/// ```
#[inline]
pub fn run_term(words: &[u32], sample: u32) -> Result<bool, Refusal> {
    let (mut hit, mut place) = (0, 0);
    let number = unsafe { raw::voltamar_run_term(words.as_ptr(), words.len(), sample, &mut hit, &mut place) };
    answer(number, place, hit != 0)
}

/// Runs a range's thirty-two chain words, the lower chain first, on a sample.
#[inline]
pub fn run_range(words: &[u32], sample: u32) -> Result<bool, Refusal> {
    let (mut hit, mut place) = (0, 0);
    let number = unsafe { raw::voltamar_run_range(words.as_ptr(), words.len(), sample, &mut hit, &mut place) };
    answer(number, place, hit != 0)
}

/// Runs an edge's eight chain words on an earlier and a later sample.
#[inline]
pub fn run_edge(words: &[u32], earlier: u32, later: u32) -> Result<bool, Refusal> {
    let (mut hit, mut place) = (0, 0);
    let number = unsafe { raw::voltamar_run_edge(words.as_ptr(), words.len(), earlier, later, &mut hit, &mut place) };
    answer(number, place, hit != 0)
}

/// Runs a sum's six chain words on the sixteen sources.
#[inline]
pub fn run_sum(words: &[u32], sources: u16) -> Result<bool, Refusal> {
    let (mut hit, mut place) = (0, 0);
    let number = unsafe { raw::voltamar_run_sum(words.as_ptr(), words.len(), sources, &mut hit, &mut place) };
    answer(number, place, hit != 0)
}

/// The least pattern of the sixteen sources that tells two sums apart, or none. A sum is its eleven operations; what it
/// does is what [`run_sum`] says of the words that [`compile`] writes for it. What is not eleven operations from 0 to 9
/// is refused with 10.
///
/// ```
/// let both = [2, 0, 0, 0, 0, 0, 0, 0, 4, 0, 4]; // ab AND, mid1 OR, final OR: terms 0 and 1
/// let either = [4, 0, 0, 0, 0, 0, 0, 0, 4, 0, 4]; // ab OR
/// assert_eq!(voltamar::sum_telling(&both, &either), Ok(Some(0x0001)));
/// assert_eq!(voltamar::sum_telling(&[0; 11], &[5, 0, 0, 0, 0, 0, 0, 0, 0, 0, 0]), Ok(None));
/// assert_eq!(voltamar::sum_telling(&both, &either[1..]), Err(voltamar::Refusal { number: 10, place: 0 }));
/// ```
#[inline]
pub fn sum_telling(old: &[u8], new: &[u8]) -> Result<Option<u16>, Refusal> {
    let mut sources = 0;
    match unsafe { raw::voltamar_sum_telling(old.as_ptr(), old.len(), new.as_ptr(), new.len(), &mut sources) } {
        0 => Ok(None),
        1 => Ok(Some(sources)),
        number => Err(Refusal { number, place: 0 }),
    }
}

/// The plain rule of a term.
#[inline]
pub fn term_hit(target: u32, mask: u32, sample: u32) -> bool {
    unsafe { raw::voltamar_term_hit(target, mask, sample) }
}

/// The plain rule of a range.
///
/// ```
/// assert!(voltamar::range_hit(3, 9, 0xF, 9));
/// assert!(!voltamar::range_hit(3, 9, 0xF, 10));
/// ```
#[inline]
pub fn range_hit(lower: u32, upper: u32, mask: u32, sample: u32) -> bool {
    unsafe { raw::voltamar_range_hit(lower, upper, mask, sample) }
}

/// The plain rule of an edge.
#[inline]
pub fn edge_hit(rise: u32, fall: u32, neither: u32, earlier: u32, later: u32) -> bool {
    unsafe { raw::voltamar_edge_hit(rise, fall, neither, earlier, later) }
}

/// What one call of [`bench()`] hands on to the next. The default is a fresh run: state 0, count 0, no word before the
/// first sample, not ended.
#[derive(Clone, Copy, Debug, Default, PartialEq, Eq)]
pub struct Run {
    /// From 0 to 15.
    pub state: u32,
    /// How often the state's hit sum has matched; below the state's number.
    pub count: u32,
    /// The sample before the next one.
    pub earlier: Option<u32>,
    pub ended: bool,
}

impl Run {
    fn words(&self) -> [u32; 5] {
        let earlier = self.earlier.unwrap_or(0);
        [self.state, self.count, self.earlier.is_some().into(), earlier, self.ended.into()]
    }

    /// Of words that the library wrote.
    fn of_words([state, count, has_earlier, earlier, ended]: [u32; 5]) -> Run {
        Run { state, count, earlier: (has_earlier == 1).then_some(earlier), ended: ended == 1 }
    }
}

/// Runs a sheet's programme over samples. Writes those that capture takes, in their order, to the start of `out`, and
/// answers how many, and the run to hand to the next call: samples in pieces give what one call gives. Room for as many
/// words as there are samples is always enough.
///
/// ```
/// use voltamar::{bench, Run};
/// // one sum, in slot 2: the capture sum of state 0, which matches always
/// let sheet = b"\0\0\0\x01\x02CAPTURE \0\0\0\0\0\0\0\0\0\0\x01\0";
/// let mut out = [0; 4];
/// let (taken, run) = bench(sheet, &[7, 8], Run::default(), &mut out)?;
/// assert_eq!((taken, out), (2, [7, 8, 0, 0]));
/// assert_eq!(run, Run { earlier: Some(8), ..Run::default() });
/// let (taken, run) = bench(sheet, &[9], run, &mut out[taken..])?;
/// assert_eq!((taken, run.earlier, out), (1, Some(9), [7, 8, 9, 0]));
/// let short = bench(sheet, &[7, 8], Run::default(), &mut out[..1]);
/// assert_eq!(short, Err(voltamar::Refusal { number: 12, place: 2 }));
/// # Ok::<(), voltamar::Refusal>(())
/// ```
#[inline]
pub fn bench(sheet: &[u8], samples: &[u32], run: Run, out: &mut [u32]) -> Result<(usize, Run), Refusal> {
    let (mut run, mut place) = (run.words(), 0);
    let number = unsafe {
        raw::voltamar_bench(
            sheet.as_ptr(),
            sheet.len(),
            samples.as_ptr(),
            samples.len(),
            run.as_mut_ptr(),
            run.len(),
            out.as_mut_ptr(),
            out.len(),
            &mut place,
        )
    };
    answer(number, place, (place, Run::of_words(run)))
}
