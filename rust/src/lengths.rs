//! Room that is always enough, as a full sheet has it.

/// The sections of a sheet, and the bytes of a label. The longest lengths follow from these two and the table below.
pub const SECTIONS: usize = 5;
pub const LABEL: usize = 8;

/// The slots of a section, and what one of them takes: bytes of its description, commands, and bytes that its line of
/// the notice has behind ALTR.
struct Section {
    most: usize,
    description: usize,
    commands: usize,
    shown: usize,
}

/// Terms, ranges, edges, sums, states.
const ALL: [Section; SECTIONS] = [
    Section { most: 10, description: 8, commands: 1 + 4, shown: 9 },
    Section { most: 2, description: 12, commands: 2 * (1 + 16), shown: 9 },
    Section { most: 2, description: 12, commands: 1 + 8, shown: 18 },
    Section { most: 48, description: 11, commands: 1 + 6, shown: 5 },
    Section { most: 16, description: 13, commands: 1 + 1, shown: 0 },
];

/// Room for the longest sheet, the most commands and the longest notice: a count for each section, and slot, label and
/// description for each slot; five bytes for each command; a line NAME and a line ALTR for each slot.
pub const LONGEST_SHEET: usize = LONGEST[0];
pub const LONGEST_STREAM: usize = LONGEST[1];
pub const LONGEST_NOTICE: usize = LONGEST[2];

const LONGEST: [usize; 3] = {
    let line = "TERM 00 NAME\n".len();
    let (mut longest, mut at) = ([SECTIONS, 0, 0], 0);
    while at < SECTIONS {
        let section = &ALL[at];
        longest[0] += section.most * (1 + LABEL + section.description);
        longest[1] += section.most * section.commands * 5;
        longest[2] += section.most * (line + line + section.shown);
        at += 1;
    }
    longest
};
