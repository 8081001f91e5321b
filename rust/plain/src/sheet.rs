//! The set-up sheet: five sections (terms, ranges, edges, sums, sequence states), each after its count.
use crate::{number_at, refused, Refusal};

/// What other sizes, places and lengths follow from: the number of sections, and the bytes of a label.
pub const SECTIONS: usize = 5;
pub const LABEL: usize = 8;

/// Where a record's description starts: after slot and label.
pub const DESCRIPTION: usize = 1 + LABEL;

/// Records that a section may have, and the bytes of one record.
pub const MOST: [u8; SECTIONS] = [10, 2, 2, 48, 16];
pub const SIZE: [usize; SECTIONS] = above(DESCRIPTION, [8, 12, 12, 11, 13]);

/// No section has more records than the sums.
const MOST_OF_ANY: usize = MOST[3] as usize;

/// Every slot is taken: a count for each section, and as many records as it may have.
pub const LONGEST_SHEET: usize = SECTIONS + full(SIZE);

/// Each number with the same one added.
pub(crate) const fn above(base: usize, mut numbers: [usize; SECTIONS]) -> [usize; SECTIONS] {
    let mut section = 0;
    while section < SECTIONS {
        numbers[section] += base;
        section += 1;
    }
    numbers
}

/// What all the slots take together, given what one of each section takes.
pub(crate) const fn full(each: [usize; SECTIONS]) -> usize {
    let (mut all, mut section) = (0, 0);
    while section < SECTIONS {
        all += MOST[section] as usize * each[section];
        section += 1;
    }
    all
}

pub fn check(sheet: &[u8]) -> Result<(), Refusal> {
    parts(sheet).map(|_| ())
}

/// The check's number (0: accepted), then start and length of one section's records; 0, 0 where there are none.
pub fn section(sheet: &[u8], number: u8) -> (u8, usize, usize) {
    match parts(sheet) {
        Err(refusal) => (refusal.number, 0, 0),
        Ok(parts) => match parts.get(number as usize) {
            Some(part) if !part.is_empty() => (0, part.as_ptr() as usize - sheet.as_ptr() as usize, part.len()),
            _ => (0, 0, 0),
        },
    }
}

/// The records of each section, or the first fault from the left.
pub(crate) fn parts(sheet: &[u8]) -> Result<[&[u8]; SECTIONS], Refusal> {
    let mut parts: [&[u8]; SECTIONS] = [&[]; SECTIONS];
    let mut starts = [0; MOST_OF_ANY]; // of the labels met in a section
    let mut at = 0;
    for section in 0..SECTIONS {
        let Some(&count) = sheet.get(at) else { return refused(1, at) };
        if count > MOST[section] {
            return refused(2, at);
        }
        at += 1;
        let start = at;
        let mut before = None;
        for met in 0..usize::from(count) {
            let Some(record) = sheet.get(at..at + SIZE[section]) else { return refused(1, at) };
            if let Some(number) = fault(section, record, before, &sheet[start..at], &starts[..met]) {
                return refused(number, at);
            }
            before = Some(record[0]);
            starts[met] = label_start(record);
            at += SIZE[section];
        }
        parts[section] = &sheet[start..at];
    }
    if at < sheet.len() {
        return refused(11, at);
    }
    Ok(parts)
}

/// The first eight bytes of a record's label as one number: compared all at once, and several labels at a time.
fn label_start(record: &[u8]) -> u64 {
    u64::from_le_bytes(record[1..DESCRIPTION][..8].try_into().expect("a label has eight bytes or more"))
}

fn label(record: &[u8]) -> &[u8] {
    &record[1..DESCRIPTION]
}

/// The first thing that is wrong with a whole record; `before` is the slot of the record before it, `earlier` are all
/// the records before it in its section, and `starts` the starts of their labels.
fn fault(section: usize, record: &[u8], before: Option<u8>, earlier: &[u8], starts: &[u64]) -> Option<u8> {
    let slot = record[0];
    if slot >= MOST[section] {
        return Some(3);
    }
    if before.is_some_and(|before| slot <= before) {
        return Some(4);
    }
    if label(record).iter().any(|&byte| !(0x20..=0x7E).contains(&byte)) {
        return Some(5);
    }
    let same = |other: &[u8]| label(other) == label(record);
    if starts.contains(&label_start(record)) && earlier.chunks_exact(SIZE[section]).any(same) {
        return Some(19);
    }
    description_fault(section, &record[DESCRIPTION..])
}

pub(crate) fn description_fault(section: usize, description: &[u8]) -> Option<u8> {
    match section {
        1 => {
            let (lower, upper, mask) = three(description);
            let biggest = (1u64 << mask.count_ones()) - 1;
            if lower == 0 {
                Some(6)
            } else if lower > upper {
                Some(7)
            } else if u64::from(upper) > biggest {
                Some(8)
            } else {
                None
            }
        }
        2 => {
            // a line that asks for all three would hit on every two samples
            let (rise, fall, neither) = three(description);
            (rise & fall & neither != 0).then_some(9)
        }
        3 => description.iter().any(|&operation| operation > 9).then_some(10),
        4 => {
            let (number, else_state, flags) = state(description);
            (number > 0xF_FFFF || else_state > 15 || flags.iter().any(|&flag| flag > 1)).then_some(18)
        }
        _ => None, // a term has no fault
    }
}

/// The numbers of a range (lower, upper, mask) or of an edge (rise, fall, neither).
pub(crate) fn three(description: &[u8]) -> (u32, u32, u32) {
    (number_at(description, 0), number_at(description, 4), number_at(description, 8))
}

/// The numbers of a term: target and mask.
pub(crate) fn two(description: &[u8]) -> (u32, u32) {
    (number_at(description, 0), number_at(description, 4))
}

/// The fields of a state: number, else state, flags.
pub(crate) fn state(description: &[u8]) -> (u32, u8, [u8; 8]) {
    (number_at(description, 0), description[4], description[5..13].try_into().expect("a state has eight flags"))
}
