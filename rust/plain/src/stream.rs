//! Sheet to commands and back.
use crate::sheet::{full, parts, state, three, two, DESCRIPTION, LONGEST_SHEET, MOST, SECTIONS, SIZE};
use crate::{edge_words, range_words, state_word, sum_words, term_words};
use crate::{number_at, refused, Refusal};
use crate::{read_edge, read_range, read_state, read_sum, read_term};

/// Every slot is taken.
pub const LONGEST_STREAM: usize = full(ITEM);

const SELECT: u8 = 0x9E;
const WORD: u8 = 0x9F;

/// The bytes of one item's commands, by section: one select to a chain, five bytes to a command.
const ITEM: [usize; SECTIONS] = [5 * 5, 2 * 17 * 5, 9 * 5, 7 * 5, 2 * 5];

/// The sections by their addresses: the states go out first.
const SENDING: [usize; SECTIONS] = [STATES, 0, 1, 2, 3];
const STATES: usize = 4;

/// What the label of a record that is read begins with, before the slot's two digits.
const LETTER: [u8; SECTIONS] = *b"TRESQ";

/// Lent room that commands are put into, one after the other.
struct Commands<'a> {
    room: &'a mut [u8],
    at: usize,
}

impl Commands<'_> {
    fn put(&mut self, opcode: u8, number: u32) {
        let command = &mut self.room[self.at..self.at + 5];
        command[0] = opcode;
        command[1..].copy_from_slice(&number.to_le_bytes());
        self.at += 5;
    }

    fn chain(&mut self, address: u32, words: &[u32]) {
        self.put(SELECT, address);
        for &word in words {
            self.put(WORD, word);
        }
    }
}

pub fn compile(sheet: &[u8], out: &mut [u8]) -> Result<usize, Refusal> {
    let parts = parts(sheet)?;
    let needed = (0..SECTIONS).map(|section| parts[section].len() / SIZE[section] * ITEM[section]).sum();
    if out.len() < needed {
        return refused(12, needed);
    }
    let mut commands = Commands { room: out, at: 0 };
    for section in SENDING {
        for record in parts[section].chunks_exact(SIZE[section]) {
            send(&mut commands, section, u32::from(record[0]), &record[DESCRIPTION..]);
        }
    }
    Ok(needed)
}

/// Puts the commands of one record.
fn send(commands: &mut Commands, section: usize, slot: u32, description: &[u8]) {
    match section {
        0 => {
            let (target, mask) = two(description);
            commands.chain(0x20 + slot, &term_words(target, mask));
        }
        1 => {
            let (lower, upper, mask) = three(description);
            let words = range_words(lower, upper, mask);
            commands.chain(0x30 + 2 * slot, &words[..16]);
            commands.chain(0x31 + 2 * slot, &words[16..]);
        }
        2 => {
            let (rise, fall, neither) = three(description);
            commands.chain(0x34 + slot, &edge_words(rise, fall, neither));
        }
        3 => {
            let operations = description.try_into().expect("a sum has eleven operations");
            commands.chain(0x40 + slot / 3 * 4 + slot % 3, &sum_words(operations));
        }
        STATES => {
            let (number, else_state, flags) = state(description);
            commands.chain(slot, &[state_word(number, else_state, flags)]);
        }
        _ => unreachable!("no such section"),
    }
}

/// A stream that is read command by command.
struct Cursor<'a> {
    stream: &'a [u8],
    at: usize,
}

impl Cursor<'_> {
    /// The number of the command at the cursor, if it is whole (13) and has the opcode due (14).
    fn due(&self, opcode: u8) -> Result<u32, Refusal> {
        if self.stream.len() - self.at < 5 {
            return refused(13, self.at);
        }
        if self.stream[self.at] != opcode {
            return refused(14, self.at);
        }
        Ok(number_at(self.stream, self.at + 1))
    }

    fn words(&mut self, words: &mut [u32]) -> Result<(), Refusal> {
        for word in words {
            *word = self.due(WORD)?;
            self.at += 5;
        }
        Ok(())
    }
}

/// Section and slot of an address that an item may start with.
fn item_at(address: u32) -> Option<(usize, u8)> {
    match address {
        0x00..=0x0F => Some((STATES, address as u8)),
        0x20..=0x29 => Some((0, address as u8 - 0x20)),
        0x30 | 0x32 => Some((1, (address as u8 - 0x30) / 2)),
        0x34 | 0x35 => Some((2, address as u8 - 0x34)),
        0x40..=0x7E if address % 4 != 3 => Some((3, (address as u8 - 0x40) / 4 * 3 + address as u8 % 4)),
        _ => None,
    }
}

/// The sheet as it grows: counts stand before their records, and sections come in order.
struct Growing {
    bytes: [u8; LONGEST_SHEET],
    length: usize,
    section: usize,
    count_at: usize,
}

impl Growing {
    fn new() -> Self {
        Growing { bytes: [0; LONGEST_SHEET], length: 1, section: 0, count_at: 0 }
    }

    fn go_to(&mut self, section: usize) {
        while self.section < section {
            self.section += 1;
            self.count_at = self.length;
            self.length += 1;
        }
    }

    fn put(&mut self, bytes: &[u8]) {
        self.bytes[self.length..self.length + bytes.len()].copy_from_slice(bytes);
        self.length += bytes.len();
    }

    fn head(&mut self, section: usize, slot: u8) {
        self.go_to(section);
        self.bytes[self.count_at] += 1;
        let mut head = [b' '; DESCRIPTION];
        head[..4].copy_from_slice(&[slot, LETTER[section], b'0' + slot / 10, b'0' + slot % 10]);
        self.put(&head);
    }

    fn numbers(&mut self, numbers: &[u32]) {
        for number in numbers {
            self.put(&number.to_le_bytes());
        }
    }
}

/// The states met, slot and word: they come first in the stream and stand last on the sheet.
struct States {
    met: [(u8, u32); MOST[STATES] as usize],
    count: usize,
}

pub fn read(stream: &[u8], out: &mut [u8]) -> Result<usize, Refusal> {
    let mut cursor = Cursor { stream, at: 0 };
    let mut sheet = Growing::new();
    let mut states = States { met: [(0, 0); MOST[STATES] as usize], count: 0 };
    let mut least = 0; // the least address that may come next
    while cursor.at < stream.len() {
        let start = cursor.at;
        let address = cursor.due(SELECT)?;
        let Some((section, slot)) = item_at(address).filter(|_| address >= least) else { return refused(15, start) };
        cursor.at += 5;
        least = address + 1;
        if section == STATES {
            let mut word = [0];
            cursor.words(&mut word)?;
            states.met[states.count] = (slot, word[0]);
            states.count += 1;
        } else {
            item(&mut cursor, &mut sheet, section, slot)?;
        }
    }
    for &(slot, word) in &states.met[..states.count] {
        let (number, else_state, flags) = read_state(word);
        sheet.head(STATES, slot);
        sheet.numbers(&[number]);
        sheet.put(&[else_state]);
        sheet.put(&flags);
    }
    sheet.go_to(SECTIONS - 1);
    if out.len() < sheet.length {
        return refused(12, sheet.length);
    }
    out[..sheet.length].copy_from_slice(&sheet.bytes[..sheet.length]);
    Ok(sheet.length)
}

/// Reads an item of tables, whose select has been read, and puts its record.
fn item(cursor: &mut Cursor, sheet: &mut Growing, section: usize, slot: u8) -> Result<(), Refusal> {
    let start = cursor.at - 5;
    match section {
        0 => {
            let mut words = [0; 4];
            cursor.words(&mut words)?;
            let Some((target, mask)) = read_term(&words) else { return refused(16, start) };
            sheet.head(section, slot);
            sheet.numbers(&[target, mask]);
        }
        1 => {
            let mut words = [0; 32];
            cursor.words(&mut words[..16])?;
            if cursor.due(SELECT)? != 0x31 + 2 * u32::from(slot) {
                return refused(15, cursor.at);
            }
            cursor.at += 5;
            cursor.words(&mut words[16..])?;
            let Some((lower, upper, mask)) = read_range(&words) else { return refused(16, start) };
            sheet.head(section, slot);
            sheet.numbers(&[lower, upper, mask]);
        }
        2 => {
            let mut words = [0; 8];
            cursor.words(&mut words)?;
            let Some((rise, fall, neither)) = read_edge(&words) else { return refused(16, start) };
            sheet.head(section, slot);
            sheet.numbers(&[rise, fall, neither]);
        }
        3 => {
            let mut words = [0; 6];
            cursor.words(&mut words)?;
            let Some(operations) = read_sum(&words) else { return refused(16, start) };
            sheet.head(section, slot);
            sheet.put(&operations);
        }
        _ => unreachable!("no such section, or states, which have no tables"),
    }
    Ok(())
}
