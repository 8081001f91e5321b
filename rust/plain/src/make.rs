//! Inputs to compare on: random sheets, sheets that are near one another, damaged sheets, damaged streams, chain words.
use crate::sheet::description_fault;
use crate::{compile, DESCRIPTION, LABEL, LONGEST_SHEET, LONGEST_STREAM, MOST, SECTIONS, SIZE};

/// A small generator of random numbers (xorshift64*), so that no other crate is needed. The seed is not 0.
pub struct Random(pub u64);

impl Random {
    pub fn u64(&mut self) -> u64 {
        self.0 ^= self.0 >> 12;
        self.0 ^= self.0 << 25;
        self.0 ^= self.0 >> 27;
        self.0.wrapping_mul(0x2545_F491_4F6C_DD1D)
    }

    pub fn u32(&mut self) -> u32 {
        (self.u64() >> 32) as u32
    }

    pub fn u8(&mut self) -> u8 {
        (self.u64() >> 56) as u8
    }

    /// A number below `n`.
    pub fn below(&mut self, n: usize) -> usize {
        (self.u64() >> 33) as usize % n
    }

    /// True one time in `n`.
    pub fn one_in(&mut self, n: usize) -> bool {
        self.below(n) == 0
    }

    pub fn bytes(&mut self, length: usize) -> Vec<u8> {
        (0..length).map(|_| self.u8()).collect()
    }

    pub fn pick<T: Copy>(&mut self, from: &[T]) -> T {
        from[self.below(from.len())]
    }

    /// A mask of any shape: none, one line, few, half, many, all, neighbours.
    pub fn mask(&mut self) -> u32 {
        match self.below(9) {
            0 => 0,
            1 => 1 << self.below(32),
            2 => self.u32() & self.u32() & self.u32(),
            3 => self.u32() | self.u32() | self.u32(),
            4 => u32::MAX,
            5 => {
                let from = self.below(32);
                (u32::MAX >> self.below(32 - from)) & (u32::MAX << from)
            }
            6 => self.u32() & 15 << (4 * self.below(8)),
            _ => self.u32(),
        }
    }

    /// A number of bytes of room around what is needed: too short, exact, larger, none, plenty.
    pub fn room(&mut self, needed: usize) -> usize {
        match self.below(6) {
            0 => needed.saturating_sub(1),
            1 => needed,
            2 => needed + 1 + self.below(40),
            3 => self.below(needed + 1),
            4 => 0,
            _ => LONGEST_STREAM + self.below(3),
        }
    }
}

/// A sheet in parts: for each section its records, each record its bytes.
#[derive(Clone, Default)]
pub struct Setup {
    pub sections: [Vec<Vec<u8>>; SECTIONS],
}

impl Setup {
    /// An accepted sheet; each slot is taken `taken` times in eight.
    pub fn random(random: &mut Random, taken: usize) -> Setup {
        let mut setup = Setup::default();
        for (section, &most) in MOST.iter().enumerate() {
            for slot in 0..most {
                if random.below(8) < taken {
                    let record = setup.record(random, section, slot);
                    setup.sections[section].push(record);
                }
            }
        }
        setup
    }

    /// The sheet's bytes.
    pub fn sheet(&self) -> Vec<u8> {
        let mut bytes = Vec::new();
        for records in &self.sections {
            bytes.push(records.len() as u8);
            bytes.extend(records.concat());
        }
        bytes
    }

    /// Another accepted sheet, not far from this one.
    pub fn near(&self, random: &mut Random) -> Setup {
        let mut setup = self.clone();
        for (section, &most) in MOST.iter().enumerate() {
            for which in 0..setup.sections[section].len() {
                setup.change(random, section, which);
            }
            setup.sections[section].retain(|_| !random.one_in(12));
            for slot in 0..most {
                let taken = setup.sections[section].iter().any(|record| record[0] == slot);
                if !taken && random.one_in(16) {
                    setup.fill(random, section, slot);
                }
            }
        }
        setup
    }

    /// Changes a record's label, its description, both or nothing.
    fn change(&mut self, random: &mut Random, section: usize, which: usize) {
        match random.below(8) {
            0 => {
                let label = one_byte_off(random, self.label(section, which));
                self.give_label(section, which, label);
            }
            1 => {
                self.sections[section][which].truncate(DESCRIPTION);
                self.sections[section][which].extend(description(random, section));
            }
            2 | 3 => nudge(random, section, &mut self.sections[section][which][DESCRIPTION..]),
            4 => {
                nudge(random, section, &mut self.sections[section][which][DESCRIPTION..]);
                let label = self.free_label(random, section);
                self.give_label(section, which, label);
            }
            _ => {}
        }
    }

    /// Puts a record into a free slot: a fresh one, or one of another slot that moves.
    fn fill(&mut self, random: &mut Random, section: usize, slot: u8) {
        let mut record = self.record(random, section, slot);
        let records = &mut self.sections[section];
        if !records.is_empty() && random.one_in(2) {
            record = records.remove(random.below(records.len()));
            record[0] = slot;
        }
        let at = records.partition_point(|other| other[0] < slot);
        records.insert(at, record);
    }

    fn record(&self, random: &mut Random, section: usize, slot: u8) -> Vec<u8> {
        let mut record = vec![slot];
        record.extend(self.free_label(random, section));
        record.extend(description(random, section));
        record
    }

    fn label(&self, section: usize, which: usize) -> Label {
        self.sections[section][which][1..DESCRIPTION].try_into().expect("as many bytes as a label has")
    }

    fn set_label(&mut self, section: usize, which: usize, label: Label) {
        self.sections[section][which][1..DESCRIPTION].copy_from_slice(&label);
    }

    /// Whether no record of the section has this label.
    fn is_free(&self, section: usize, label: Label) -> bool {
        self.sections[section].iter().all(|record| record[1..DESCRIPTION] != label)
    }

    /// Sets the label if no record of the section has it, and answers whether it did.
    fn give_label(&mut self, section: usize, which: usize, label: Label) -> bool {
        let free = self.is_free(section, label);
        if free {
            self.set_label(section, which, label);
        }
        free
    }

    /// A label that no record of the section has: any, or blank, or that of a record of another section, or one byte
    /// off some record's.
    fn free_label(&self, random: &mut Random, section: usize) -> Label {
        loop {
            let other = if random.one_in(2) { section } else { random.below(SECTIONS) };
            let label = match (random.below(32), self.sections[other].len()) {
                (0, _) => padded(""),
                (1..=4, met @ 1..) => self.label(other, random.below(met)),
                (5..=12, met @ 1..) => {
                    let label = self.label(other, random.below(met));
                    one_byte_off(random, label)
                }
                _ => std::array::from_fn(|_| label_byte(random)),
            };
            if self.is_free(section, label) {
                return label;
            }
        }
    }

    /// Gives a record the label of another record of its section: 19 at the later of the two, where nothing else is
    /// wrong. Answers section and record of that, or nothing where no section has two records.
    pub fn same_label(&mut self, random: &mut Random) -> Option<(usize, usize)> {
        let sections: Vec<usize> = (0..SECTIONS).filter(|&section| self.sections[section].len() >= 2).collect();
        if sections.is_empty() {
            return None;
        }
        let section = random.pick(&sections);
        let count = self.sections[section].len();
        let from = random.below(count);
        // each of the others
        let to = (from + 1 + random.below(count - 1)) % count;
        self.set_label(section, to, self.label(section, from));
        Some((section, from.max(to)))
    }

    /// Gives a record the label of a record of another section, where none of its own has it: no fault. Answers whether
    /// it did.
    pub fn label_across(&mut self, random: &mut Random) -> bool {
        let (from, to) = (random.below(SECTIONS), random.below(SECTIONS));
        let (given, taking) = (self.sections[from].len(), self.sections[to].len());
        if from == to || given == 0 || taking == 0 {
            return false;
        }
        let label = self.label(from, random.below(given));
        self.give_label(to, random.below(taking), label)
    }

    /// Where a section's count stands on the sheet.
    pub fn count_at(&self, section: usize) -> usize {
        (0..section).map(|before| 1 + self.sections[before].len() * SIZE[before]).sum()
    }
}

pub type Label = [u8; LABEL];

/// A name with spaces behind it.
pub fn padded(name: &str) -> Label {
    format!("{name:<LABEL$}").into_bytes().try_into().expect("no name is longer than a label")
}

/// The bytes of a record.
pub fn record(slot: u8, name: &str, description: &[u8]) -> Vec<u8> {
    [&[slot][..], &padded(name), description].concat()
}

/// A sheet with the records of one section.
pub fn one_section(section: usize, records: Vec<Vec<u8>>) -> Vec<u8> {
    let mut setup = Setup::default();
    setup.sections[section] = records;
    setup.sheet()
}

fn label_byte(random: &mut Random) -> u8 {
    match random.below(8) {
        0 => 0x20,
        1 => 0x7E,
        _ => 0x20 + random.below(0x5F) as u8,
    }
}

/// The label with another byte at one place.
fn one_byte_off(random: &mut Random, mut label: Label) -> Label {
    let byte = &mut label[random.below(LABEL)];
    let before = *byte;
    while *byte == before {
        *byte = label_byte(random);
    }
    label
}

fn numbers(numbers: &[u32]) -> Vec<u8> {
    numbers.iter().flat_map(|number| number.to_le_bytes()).collect()
}

/// An accepted description of a term (section 0), range (1), edge (2), sum (3) or state (4).
pub fn description(random: &mut Random, section: usize) -> Vec<u8> {
    match section {
        0 => numbers(&[if random.one_in(2) { random.u32() } else { random.mask() }, random.mask()]),
        1 => numbers(&range(random)),
        2 => numbers(&edge(random)),
        3 => sum(random).to_vec(),
        4 => state(random),
        _ => unreachable!("no such section"),
    }
}

/// An accepted range: lower, upper, mask.
pub fn range(random: &mut Random) -> [u32; 3] {
    let mut mask = random.mask();
    while mask == 0 {
        mask = random.mask();
    }
    let biggest = ((1u64 << mask.count_ones()) - 1) as u32;
    // many trailing digits alike make lines that cannot matter
    let zeros = random.below(mask.count_ones() as usize);
    let lower = match random.below(4) {
        0 => 1,
        1 => biggest,
        2 => ((random.u32() % biggest) >> zeros << zeros).max(1),
        _ => 1 + random.u32() % biggest,
    };
    let upper = match random.below(4) {
        0 => lower,
        1 => biggest,
        2 => (random.u32() & biggest | ((1u64 << zeros) - 1) as u32).max(lower),
        _ => lower + random.u32() % (biggest - lower).max(1),
    };
    [lower, upper.min(biggest), mask]
}

/// An accepted edge: rise, fall, neither. Each of the three has a mask of its own, or all have lines of the same mask;
/// so few lines, too, ask for two events at once.
pub fn edge(random: &mut Random) -> [u32; 3] {
    let [rise, fall, neither] = if random.one_in(2) {
        [random.mask(), random.mask(), random.mask()]
    } else {
        let lines = random.mask();
        [random.u32() & lines, random.u32() & lines, random.u32() & lines]
    };
    // a line that asks for all three leaves one of them out
    let all = rise & fall & neither;
    let (some, others) = (random.u32(), random.u32());
    [rise & !(all & some), fall & !(all & !some & others), neither & !(all & !some & !others)]
}

/// The operations of an accepted sum.
pub fn sum(random: &mut Random) -> [u8; 11] {
    std::array::from_fn(|_| random.below(10) as u8)
}

/// The sum with another operation at one place.
pub fn near_sum(random: &mut Random, mut sum: [u8; 11]) -> [u8; 11] {
    let code = &mut sum[random.below(11)];
    *code = (*code + 1 + random.below(9) as u8) % 10;
    sum
}

/// In how many ways two sums are made that match alike.
pub const ALIKE_WAYS: usize = 5;

/// Two sums of different operations, and so of different words, that match alike.
pub fn alike_sums(random: &mut Random, way: usize) -> ([u8; 11], [u8; 11]) {
    let different = std::iter::repeat_with(|| alike_pair(random, way)).find(|(old, new)| old != new);
    different.expect("most of them are")
}

/// The same, but that now and then the operations are the same.
fn alike_pair(random: &mut Random, way: usize) -> ([u8; 11], [u8; 11]) {
    const NOP_OR_ANY: [u8; 2] = [0, 1];
    const OPPOSITE: u8 = 1; // a code from 0 to 7 with this bit turned over
    let (mut old, mut new) = (sum(random), sum(random));
    let kept: &[usize] = match way {
        // the final operation asks for no mid
        0 => {
            old[10] = random.pick(&NOP_OR_ANY);
            &[10]
        }
        // the mids ask for no pair
        1 => {
            (old[8], old[9]) = (random.pick(&NOP_OR_ANY), random.pick(&NOP_OR_ANY));
            &[8, 9, 10]
        }
        // the final operation is A and asks for the first half alone
        2 => {
            old[10] = 8;
            &[0, 1, 2, 3, 8, 10]
        }
        // the mids are A and B: each asks for two of its pairs
        3 => {
            (old[8], old[9]) = (8, 9);
            &[0, 1, 6, 7, 8, 9, 10]
        }
        // both mids become their opposites, and the final operation is the one that makes up for it
        _ => {
            (old[8], old[9]) = (old[8] % 8, old[9] % 8);
            (new[8], new[9]) = (old[8] ^ OPPOSITE, old[9] ^ OPPOSITE);
            (old[10], new[10]) = random.pick(&[(2, 5), (3, 4), (4, 3), (5, 2), (6, 6), (7, 7)]);
            &[0, 1, 2, 3, 4, 5, 6, 7]
        }
    };
    kept.iter().for_each(|&place| new[place] = old[place]);
    (old, new)
}

/// An accepted state: often a number at a bound or of one bit, and no, one or every flag.
fn state(random: &mut Random) -> Vec<u8> {
    let number = match random.below(4) {
        0 => random.pick(&[0, 1, 2, 0xF_FFFF]),
        1 => 1 << random.below(20),
        _ => random.u32() >> 12,
    };
    let flags = match random.below(5) {
        0 => 0,
        1 => 0xFF,
        2 => 1 << random.below(8),
        _ => random.u8(),
    };
    let mut state = numbers(&[number]);
    state.push(random.below(16) as u8);
    state.extend((0..8).map(|flag| flags >> flag & 1));
    state
}

/// Changes a description a little, and keeps it accepted. Many of the changes change no hit.
fn nudge(random: &mut Random, section: usize, description: &mut [u8]) {
    let before = description.to_vec();
    let number = |at: usize| u32::from_le_bytes(before[at..at + 4].try_into().expect("four bytes"));
    match section {
        0 => {
            let (target, mask) = (number(0), number(4));
            let (target, mask) = match random.below(3) {
                0 => (target ^ random.u32() & !mask, mask),
                1 => (target, mask ^ 1 << random.below(32)),
                _ => (target ^ 1 << random.below(32), mask),
            };
            description.copy_from_slice(&numbers(&[target, mask]));
        }
        1 => description.copy_from_slice(&numbers(&near_range(random, [number(0), number(4), number(8)]))),
        2 => {
            let at = random.below(12);
            description[at] ^= 1 << random.below(8);
        }
        3 => description[random.below(11)] = random.below(10) as u8,
        4 => match random.below(3) {
            0 => description[random.below(3)] ^= 1 << random.below(8),
            1 => description[4] = random.below(16) as u8,
            _ => description[5 + random.below(8)] ^= 1,
        },
        _ => unreachable!("no such section"),
    }
    if description_fault(section, description).is_some() {
        description.copy_from_slice(&before);
    }
}

/// A range with one line more that cannot matter, or one such line fewer, or another bound or line.
fn near_range(random: &mut Random, [lower, upper, mask]: [u32; 3]) -> [u32; 3] {
    let lowest = mask & mask.wrapping_neg();
    let line = 1 << random.below(32);
    match random.below(5) {
        0 if line < lowest && upper >> 31 == 0 => [2 * lower, 2 * upper + 1, mask | line],
        1 if lower % 2 == 0 && upper % 2 == 1 => [lower / 2, upper / 2, mask & !lowest],
        2 => [lower.wrapping_add(1), upper, mask],
        3 => [lower, upper.wrapping_sub(1), mask],
        _ => [lower, upper, mask ^ line],
    }
}

/// A sheet with some faults in it, or none.
pub fn damaged_sheet(random: &mut Random, setup: &Setup) -> Vec<u8> {
    let mut setup = setup.clone();
    for _ in 0..random.pick(&[0, 1, 1, 1, 2, 3]) {
        damage_setup(random, &mut setup);
    }
    if random.one_in(8) {
        let section = random.below(SECTIONS);
        let records = &mut setup.sections[section];
        if let Some(last) = records.last().cloned() {
            records.push(last); // where the section was full, one more than its count may be
        }
    }
    let mut sheet = setup.sheet();
    match random.below(11) {
        0 => sheet.truncate(random.below(sheet.len() + 1)),
        1 => sheet.extend((0..1 + random.below(30)).map(|_| random.u8())),
        2 => {
            let at = random.below(sheet.len());
            sheet[at] = random.u8();
        }
        3 => {
            // a count that is not true
            let section = random.below(SECTIONS);
            let at = setup.count_at(section);
            sheet[at] = random.pick(&[sheet[at].wrapping_add(1), sheet[at].wrapping_sub(1), MOST[section] + 1, 255, 0]);
        }
        4 => sheet.truncate(setup.count_at(SECTIONS - 1)), // a sheet from before there was the last section
        _ => {}
    }
    sheet
}

/// Puts a fault into some record, or tries to. One that has another's label is now and then damaged further, so that 19
/// meets the other faults of a record.
fn damage_setup(random: &mut Random, setup: &mut Setup) {
    let (section, which) = match random.below(8) {
        0 => {
            setup.label_across(random);
            return;
        }
        1 => match setup.same_label(random) {
            Some(later) if random.one_in(3) => later,
            _ => return,
        },
        _ => {
            let section = random.below(SECTIONS);
            match setup.sections[section].len() {
                0 => return,
                count => (section, random.below(count)),
            }
        }
    };
    let records = &mut setup.sections[section];
    let before = records[which.saturating_sub(1)][0];
    damage_record(random, section, before, &mut records[which]);
}

/// Puts a fault into a record, or tries to; `before` is the slot of the record before it.
fn damage_record(random: &mut Random, section: usize, before: u8, record: &mut [u8]) {
    match (random.below(6), section) {
        (0, _) => record[0] = MOST[section] + random.pick(&[0, 0, 1, 100]),
        (1, _) => record[0] = before,
        (2, _) => record[1 + random.below(LABEL)] = random.pick(&[0x1F, 0x7F, 0x00, 0xFF, 0x80]),
        (_, 0) => {
            // a term's description has no fault
            let at = random.below(record.len());
            record[at] = random.u8();
        }
        (_, 1) => damage_range(random, &mut record[DESCRIPTION..]),
        (_, 2) => damage_edge(random, &mut record[DESCRIPTION..]),
        (_, 3) => record[DESCRIPTION + random.below(11)] = random.pick(&[10, 11, 255, 9, 128]),
        (field, 4) => damage_state(random, field, &mut record[DESCRIPTION..]),
        _ => unreachable!("no such section"),
    }
}

fn damage_range(random: &mut Random, range: &mut [u8]) {
    let mask = u32::from_le_bytes(range[8..].try_into().expect("four bytes"));
    let past = ((1u64 << mask.count_ones()) as u32).to_le_bytes();
    match random.below(6) {
        0 => range[..4].fill(0),
        1 => range[4..8].fill(0),
        2 => range[4..8].copy_from_slice(&past),
        3 => range[8..].fill(0),
        4 => range.fill(0),
        _ => range[..4].copy_from_slice(&past),
    }
}

/// A line that asks for all three; or one that leaves rise or fall out, which is no fault.
fn damage_edge(random: &mut Random, edge: &mut [u8]) {
    let (line, left_out) = (random.below(32), random.pick(&[3, 3, 0, 1]));
    for event in 0..3 {
        let (byte, bit) = (&mut edge[4 * event + line / 8], 1 << (line % 8));
        *byte = if event == left_out { *byte & !bit } else { *byte | bit };
    }
}

/// The number (3), the else state (4) or a flag.
fn damage_state(random: &mut Random, field: usize, state: &mut [u8]) {
    match field {
        3 => {
            let number: u32 = random.pick(&[0xF_FFFF, 0x10_0000, 0x10_0001, 0x100_0000, 0x8000_0000, u32::MAX]);
            state[..4].copy_from_slice(&number.to_le_bytes());
        }
        4 => state[4] = random.pick(&[15, 16, 17, 0x80, 255]),
        _ => state[5 + random.below(8)] = random.pick(&[0, 1, 2, 3, 0x80, 255]),
    }
}

/// Bytes with no plan, but for counts that are mostly small.
pub fn noise_sheet(random: &mut Random) -> Vec<u8> {
    let most = random.pick(&[0, 1, SECTIONS - 1, SECTIONS, SECTIONS + 1, 20, 60, LONGEST_SHEET, LONGEST_SHEET + 12]);
    let length = random.below(most + 1);
    let mut sheet = random.bytes(length);
    for byte in &mut sheet {
        if random.one_in(2) {
            *byte %= 12;
        }
    }
    sheet
}

/// The commands of a sheet.
pub fn stream(sheet: &[u8]) -> Vec<u8> {
    let mut out = vec![0; LONGEST_STREAM];
    let length = compile(sheet, &mut out).expect("an accepted sheet");
    out.truncate(length);
    out
}

/// What the reader's labels begin with.
const LETTER: [&str; SECTIONS] = ["T", "R", "E", "S", "Q"];

/// What reading the commands of an accepted sheet has to give: the sheet with labels of section and slot, and each
/// target cut to its mask.
pub fn read_back(sheet: &[u8]) -> Vec<u8> {
    let mut sheet = sheet.to_vec();
    let mut at = 0;
    for (section, size) in SIZE.into_iter().enumerate() {
        let count = usize::from(sheet[at]);
        at += 1;
        for record in sheet[at..at + count * size].chunks_exact_mut(size) {
            let name = format!("{}{:02}", LETTER[section], record[0]);
            record[1..DESCRIPTION].copy_from_slice(&padded(&name));
            if section == 0 {
                for byte in DESCRIPTION..DESCRIPTION + 4 {
                    record[byte] &= record[byte + 4];
                }
            }
        }
        at += count * size;
    }
    sheet
}

/// The commands of the sheet with some damage, or none.
pub fn damaged_stream(random: &mut Random, setup: &Setup) -> Vec<u8> {
    let mut commands: Vec<[u8; 5]> =
        stream(&setup.sheet()).chunks_exact(5).map(|c| c.try_into().expect("five bytes")).collect();
    for _ in 0..random.pick(&[0, 1, 1, 1, 2]) {
        if !commands.is_empty() {
            damage_commands(random, &mut commands);
        }
    }
    let mut bytes = commands.concat();
    match random.below(12) {
        0 => bytes.truncate(random.below(bytes.len() + 1)),
        1 => bytes.extend((0..1 + random.below(6)).map(|_| random.pick(&[0x9E, 0x9F, 0, 0x40, 0x20]))),
        2 if !bytes.is_empty() => {
            let at = random.below(bytes.len());
            bytes[at] = random.u8();
        }
        3 if !bytes.is_empty() => {
            bytes.remove(random.below(bytes.len()));
        }
        _ => {}
    }
    bytes
}

/// Where each chain starts: at its select.
fn selects(commands: &[[u8; 5]]) -> Vec<usize> {
    (0..commands.len()).filter(|&at| commands[at][0] == 0x9E).collect()
}

fn damage_commands(random: &mut Random, commands: &mut Vec<[u8; 5]>) {
    let at = random.below(commands.len());
    let selects = selects(commands);
    let select = if selects.is_empty() { at } else { random.pick(&selects) };
    let word = random.below(commands.len());
    match random.below(18) {
        0 => commands[at][0] ^= 1,
        1 => commands[at][0] = random.u8(),
        2 => commands[at][random.below(5)] ^= 1 << random.below(8),
        3 => {
            commands.remove(at);
        }
        4 => commands.insert(at, commands[at]),
        5 => commands.truncate(at),
        6 => {
            let odd = [0x00, 0x0F, 0x10, 0x1F, 0x2A, 0x31, 0x33, 0x36, 0x38, 0x3F, 0x43, 0x7F, 0x80];
            commands[select][1] = random.pick(&odd);
        }
        7 => commands[select][1] = commands[select][1].wrapping_add(random.pick(&[1, 2, 3, 0xFF])),
        8 => commands[select][2 + random.below(3)] = random.pick(&[1, 0x80]),
        9 => swap_chains(random, commands, &selects),
        10 => drop_chain(random, commands, &selects),
        11 => repeat_chain(random, commands, &selects),
        // half words that some chain knows, or knew (0002 and 0004), in a place where another may be due
        12..=14 if commands[word][0] == 0x9F => {
            let known: [u16; 20] = [
                0xFFFF, 0xAAAA, 0x5555, 0x0000, 0x8000, 0xA5A5, 0xCC33, 0xAFAF, 0xFF33, 0xF888, 0xFEE9, 0x000E, 0x000A,
                0x000C, 0x0002, 0x0004, 0x0A0A, 0x33CC, 0x0020, 0x7FFF,
            ];
            let half = random.below(2);
            commands[word][1 + 2 * half..3 + 2 * half].copy_from_slice(&random.pick(&known).to_le_bytes());
        }
        // the first chain, a state's where there is one, goes last
        15 => commands.rotate_left(selects.get(1).copied().unwrap_or(0)),
        16 => odd_edge(random, commands, &selects),
        _ => odd_range(random, commands, &selects),
    }
}

fn end_of(commands: &[[u8; 5]], selects: &[usize], which: usize) -> usize {
    selects.get(which + 1).copied().unwrap_or(commands.len())
}

fn swap_chains(random: &mut Random, commands: &mut [[u8; 5]], selects: &[usize]) {
    if selects.len() >= 2 {
        let which = random.below(selects.len() - 1);
        let (start, end) = (selects[which], end_of(commands, selects, which + 1));
        commands[start..end].rotate_left(selects[which + 1] - start);
    }
}

fn drop_chain(random: &mut Random, commands: &mut Vec<[u8; 5]>, selects: &[usize]) {
    if !selects.is_empty() {
        // an upper chain without its lower one, or the other way round, where there is one
        let chains: Vec<usize> =
            (0..selects.len()).filter(|&which| (0x30..0x34).contains(&commands[selects[which]][1])).collect();
        let which = if chains.is_empty() { random.below(selects.len()) } else { random.pick(&chains) };
        let end = end_of(commands, selects, which);
        commands.drain(selects[which]..end);
    }
}

fn repeat_chain(random: &mut Random, commands: &mut Vec<[u8; 5]>, selects: &[usize]) {
    if !selects.is_empty() {
        let which = random.below(selects.len());
        let end = end_of(commands, selects, which);
        let chain = commands[selects[which]..end].to_vec();
        commands.splice(end..end, chain);
    }
}

/// Changes a range's chains in a way that keeps every table one that ranges know.
fn odd_range(random: &mut Random, commands: &mut [[u8; 5]], selects: &[usize]) {
    let lowers: Vec<usize> = selects.iter().copied().filter(|&at| matches!(commands[at][1], 0x30 | 0x32)).collect();
    if lowers.is_empty() {
        return;
    }
    let start = random.pick(&lowers);
    let (first, end) = random.pick(&[(1, 17), (18, 34), (1, 34)]);
    let (from, to) = random.pick(&[(0x55, 0xAA), (0xAA, 0x55), (0xAA, 0xFF), (0x55, 0xFF), (0xFF, 0xAA)]);
    for command in commands.iter_mut().skip(start).take(end).skip(first) {
        if command[0] == 0x9F {
            for byte in &mut command[1..] {
                if *byte == from {
                    *byte = to;
                }
            }
        }
    }
}

/// Changes a table of an edge: asks for one event more, which is read unless a line then asks for all three; answers 1
/// everywhere, as it would then; or answers otherwise at one address, which is read only now and then.
fn odd_edge(random: &mut Random, commands: &mut [[u8; 5]], selects: &[usize]) {
    let edges: Vec<usize> = selects.iter().copied().filter(|&at| matches!(commands[at][1], 0x34 | 0x35)).collect();
    if edges.is_empty() {
        return;
    }
    let (word, half) = (random.pick(&edges) + 1 + random.below(8), 1 + 2 * random.below(2));
    let Some(command) = commands.get_mut(word).filter(|command| command[0] == 0x9F) else { return };
    let table = u16::from_le_bytes([command[half], command[half + 1]]);
    let table = match random.below(4) {
        0 => table ^ 1 << random.below(16),
        1 => 0xFFFF,
        _ => table | random.pick(&[0x0A0A, 0x5050, 0xA5A5, 0x00CC, 0x3300, 0xCC33]),
    };
    command[half..half + 2].copy_from_slice(&table.to_le_bytes());
}

/// Bytes that look like commands here and there.
pub fn noise_stream(random: &mut Random) -> Vec<u8> {
    let length = random.below(80);
    let mut bytes = random.bytes(length);
    for at in (0..bytes.len()).step_by(5) {
        bytes[at] = random.pick(&[0x9E, 0x9F, 0x9F, 0x9E, 0x00]);
        if bytes[at] == 0x9E && at + 5 <= bytes.len() {
            bytes[at + 1..at + 5].fill(0);
            bytes[at + 1] = random.pick(&[0x00, 0x01, 0x0F, 0x10, 0x20, 0x21, 0x30, 0x34, 0x40, 0x41, 0x43, 0x31]);
        }
    }
    bytes
}

/// Any chain words, with many of the half words that chains are made of.
pub fn words(random: &mut Random, count: usize) -> Vec<u32> {
    let plan = random.below(3);
    let mut half = || match plan {
        0 => random.u32() & 0xFFFF,
        1 => random.pick(&[0xFFFF, 0xFFFF, 0xFFFF, 0xAAAA, 0x5555, 0xFFFE, 0x7FFF]),
        _ => random.pick(&[0, 0, 0, 0, 0, 0, 1, 0x8000, 0x0A0A]),
    };
    (0..count).map(|_| half() << 16 | half()).collect()
}

/// How often each answer came: 0 done, else the refusal's number.
#[derive(Default, Debug)]
pub struct Tally([usize; 25]);

impl Tally {
    pub fn count(&mut self, number: u8) {
        self.0[usize::from(number)] += 1;
    }

    /// Stops unless done and each of these refusals came at least so often, and no other did.
    pub fn expect(&self, refusals: &[std::ops::RangeInclusive<usize>], done: usize, each: usize) {
        let fits = |(number, &times): (usize, &usize)| match number {
            0 => times >= done,
            _ if refusals.iter().any(|some| some.contains(&number)) => times >= each,
            _ => times == 0,
        };
        assert!(self.0.iter().enumerate().all(fits), "times that each number came: {self:?}");
    }
}
