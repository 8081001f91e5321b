//! The rules of the set-up sheet once more, in plain Rust: written from the rules alone, with nothing of the proved
//! crates, so that where both give the same bytes two readings agree. Needs no library.
mod bench;
mod detect;
pub mod examples;
pub mod make;
mod notice;
pub mod programmes;
mod sheet;
mod stream;
mod sums;

pub use bench::{bench, bench_words, Run, MOST_SAMPLES};
pub use detect::{edge_hit, gather, range_hit, run_edge, run_range, run_sum, run_term, scatter, term_hit};
pub use detect::{edge_words, range_words, state_word, sum_words, term_words};
pub use detect::{read_edge, read_range, read_state, read_sum, read_term};
pub use notice::{least_telling_range, least_telling_term, telling_edge};
pub use notice::{notice, notice_agrees, NoticeRefusal, TellSums, LONGEST_NOTICE};
pub use sheet::{check, section, DESCRIPTION, LABEL, LONGEST_SHEET, MOST, SECTIONS, SIZE};
pub use stream::{compile, read, LONGEST_STREAM};
pub use sums::{mid_answers, scan_telling_sum, telling_sum, Set};

/// A refusal: its number, and its place (for 12 the bytes needed, of the bench the words; for 17 the words needed; for
/// 20 the most samples).
#[derive(Clone, Copy, Debug, PartialEq, Eq)]
pub struct Refusal {
    pub number: u8,
    pub place: usize,
}

fn refused<T>(number: u8, place: usize) -> Result<T, Refusal> {
    Err(Refusal { number, place })
}

/// The number whose least byte stands at `at`.
fn number_at(bytes: &[u8], at: usize) -> u32 {
    u32::from_le_bytes([bytes[at], bytes[at + 1], bytes[at + 2], bytes[at + 3]])
}
