//! The files of examples/: sample sheets and what the calls give for them, of the lift also for a recording.
use crate::make::{self, Setup};
use crate::sheet;
use crate::{bench, notice, read, Run, DESCRIPTION, LONGEST_NOTICE, LONGEST_SHEET, SECTIONS, SIZE};
use std::fmt::Write;

/// Adds a record to a section of a sheet in the making.
fn add(setup: &mut Setup, section: usize, slot: u8, label: &str, description: &[u8]) {
    let record = make::record(slot, label, description);
    assert_eq!(record.len(), SIZE[section], "{label}");
    setup.sections[section].push(record);
}

fn term(setup: &mut Setup, slot: u8, label: &str, target: u32, mask: u32) {
    add(setup, 0, slot, label, &[target, mask].map(u32::to_le_bytes).concat());
}

fn range(setup: &mut Setup, slot: u8, label: &str, lower: u32, upper: u32, mask: u32) {
    add(setup, 1, slot, label, &[lower, upper, mask].map(u32::to_le_bytes).concat());
}

fn edge(setup: &mut Setup, slot: u8, label: &str, rise: u32, fall: u32, neither: u32) {
    add(setup, 2, slot, label, &[rise, fall, neither].map(u32::to_le_bytes).concat());
}

/// The operations in the sheet's order: ab, c, d, e, fg, h, i, j, mid1, mid2, final.
fn sum(setup: &mut Setup, state: u8, part: u8, label: &str, operations: [&str; 11]) {
    let code = |name: &str| OPERATIONS.iter().position(|&known| known == name).expect("an operation") as u8;
    add(setup, 3, 3 * state + part, label, &operations.map(code));
}

const OPERATIONS: [&str; 10] = ["NOP", "ANY", "AND", "NAND", "OR", "NOR", "XOR", "NXOR", "A", "B"];

fn state(setup: &mut Setup, slot: u8, label: &str, number: u32, else_state: u8, flags: &[&str]) {
    assert!(flags.iter().all(|flag| FLAGS.contains(flag)), "{label}");
    let mut description = number.to_le_bytes().to_vec();
    description.push(else_state);
    description.extend(FLAGS.map(|flag| u8::from(flags.contains(&flag))));
    add(setup, 4, slot, label, &description);
}

/// In the order of their bits.
const FLAGS: [&str; 8] = ["stop1", "stop2", "clear1", "clear2", "start1", "start2", "trigger", "last"];

/// The older sheet of the rules' door-lock pair.
fn old() -> Setup {
    let mut s = Setup::default();
    term(&mut s, 0, "DOORLOCK", 5, 0xF);
    term(&mut s, 1, "BRAKE", 4, 0xF);
    range(&mut s, 0, "FLOORS", 3, 9, 0xF00);
    s
}

/// The newer sheet of that pair.
fn new() -> Setup {
    let mut s = Setup::default();
    term(&mut s, 0, "DOORLK", 5, 0xF);
    term(&mut s, 1, "BRAKE", 6, 0xF);
    term(&mut s, 2, "LEVELLED", 0x10, 0x10);
    s
}

/// A lift controller's set-up; README.md says what each line is.
fn lift() -> Setup {
    let mut s = Setup::default();
    term(&mut s, 0, "DOORLOCK", 0x5, 0xF);
    term(&mut s, 1, "DRSHUT", 0x30, 0x30);
    term(&mut s, 2, "UP", 0x3_4000, 0x3_C000);
    term(&mut s, 3, "DOWN", 0x3_8000, 0x3_C000);
    term(&mut s, 4, "BOTHDIR", 0xC000, 0xC000);
    term(&mut s, 5, "CHAINOPN", 0, 0x10_0000);
    term(&mut s, 6, "ESTOP", 0x20_0000, 0x20_0000);
    term(&mut s, 7, "INSPECT", 0x40_0000, 0x40_0000);
    term(&mut s, 9, "LEVEL", 0x4_0000, 0x5_0000);
    range(&mut s, 0, "FLOOR3-9", 3, 9, 0x3F00);
    range(&mut s, 1, "OVERSPD", 100, 127, 0x7F00_0000);
    edge(&mut s, 0, "DOORMOVE", 0x40, 0x30, 0);
    edge(&mut s, 1, "STUCK", 0x8_0000, 0, 0x8000_0000);
    let (no, or) = ("NOP", "OR");
    //                            ab     c    d    e    fg   h    i    j    mid1   mid2 final
    // one tree: the lock in its first half, the alarm in its second
    sum(&mut s, 0, 0, "S0 LOCK", ["AND", no, no, no, or, no, no, no, or, or, "A"]);
    sum(&mut s, 0, 1, "S0 ALARM", ["AND", no, no, no, or, no, no, no, or, or, "B"]);
    sum(&mut s, 0, 2, "S0 CAPT", [no, no, "B", no, no, no, no, no, or, no, or]);
    sum(&mut s, 1, 0, "S1 MOVE", [no, "A", "A", no, no, no, no, no, or, no, or]);
    sum(&mut s, 1, 1, "S1 ALARM", [no, no, no, or, or, no, no, no, or, or, or]);
    sum(&mut s, 1, 2, "S1 CAPT", [no, no, no, no, no, no, no, no, no, no, "ANY"]);
    sum(&mut s, 2, 0, "S2 FAULT", [no, no, no, "A", no, "B", "B", no, or, or, or]);
    sum(&mut s, 2, 1, "S2 LEVEL", [no, no, no, no, no, no, no, or, no, or, or]);
    sum(&mut s, 2, 2, "S2 CAPT", [no, "B", "A", no, no, no, no, no, or, no, or]);
    sum(&mut s, 3, 0, "S3 STOP", [no, "A", "A", no, no, no, no, no, "NOR", no, or]);
    sum(&mut s, 3, 1, "S3 INSP", [no, no, no, no, no, "A", no, no, no, or, or]);
    sum(&mut s, 3, 2, "S3 CAPT", ["XOR", no, no, no, no, no, no, no, or, no, or]);
    state(&mut s, 0, "LOCKED", 3, 0, &["clear1", "clear2", "start1", "start2"]);
    state(&mut s, 1, "MOVING", 1, 0, &[]);
    state(&mut s, 2, "FAULT", 1, 0, &["stop1", "stop2", "trigger"]);
    state(&mut s, 3, "STOPPED", 100, 3, &["last"]);
    s
}

/// The lift's set-up as revised: a line of the notice for each thing that can be said whatever sample is chosen; that
/// of a sum, where the library too shows the least pattern; and that of an edge, whose samples the rules leave open:
/// here no line moves.
fn revised() -> Setup {
    let mut s = lift();
    s.sections[0].clear();
    term(&mut s, 0, "DOORLOCK", 0x7, 0xF); // another code
    term(&mut s, 1, "DOORSHUT", 0x30, 0x30); // another label
    term(&mut s, 2, "UP", 0x3_4000, 0x3_C000);
    term(&mut s, 3, "DOWN", 0x3_8000, 0x3_C000);
    term(&mut s, 4, "BOTHDIR", 0xFFFF, 0xC000); // target bits that the mask ignores
    term(&mut s, 5, "CHAINOPN", 0, 0x10_0000);
    term(&mut s, 6, "ESTOP", 0x20_0000, 0x20_0000);
    term(&mut s, 7, "INSPECT", 0x40_0000, 0x40_0000);
    term(&mut s, 8, "LEVEL", 0x4_0000, 0x5_0000); // moved to another slot
    s.sections[1].clear();
    range(&mut s, 1, "OVERSPD", 25, 31, 0x7C00_0000); // without two lines that cannot matter
    s.sections[2].clear();
    edge(&mut s, 0, "DOORMOVE", 0x40, 0x30, 0x20); // the landing door also where it stays
    edge(&mut s, 1, "STANDS", 0x8_0000, 0, 0x8000_0000); // another label
    s.sections[3][8][DESCRIPTION + 1] = 0; // S2 CAPT asks for range 1 no more
    sum(&mut s, 4, 0, "S4 ANY", ["NOP", "NOP", "NOP", "NOP", "NOP", "NOP", "NOP", "NOP", "NOP", "NOP", "ANY"]);
    s.sections[4].truncate(1); // without state 3
    state(&mut s, 1, "RIDING", 1, 0, &[]); // another label
    state(&mut s, 2, "FAULT", 1, 4, &["stop1", "stop2", "trigger", "last"]); // another else state, and the last flag
    state(&mut s, 4, "ARRIVED", 1000, 4, &["last"]);
    s
}

fn hex(bytes: &[u8]) -> String {
    bytes.iter().map(|byte| format!("{byte:02X}")).collect::<Vec<_>>().join(" ")
}

/// A sheet one record to a line, as `voltamar show` has it: offset, then a count, or slot, label and description.
fn sheet_text(setup: &Setup) -> String {
    const NAME: [&str; SECTIONS] = ["terms", "ranges", "edges", "sums", "states"];
    let mut text = String::new();
    let mut at = 0;
    for (section, records) in setup.sections.iter().enumerate() {
        let _ = writeln!(text, "{at:>4}  {}: {}", NAME[section], records.len());
        at += 1;
        for record in records {
            let label = String::from_utf8_lossy(&record[1..DESCRIPTION]);
            let fields = fields_text(section, &record[DESCRIPTION..]);
            let _ = writeln!(text, "{at:>4}  slot {} \"{label}\"{fields}", record[0]);
            at += record.len();
        }
    }
    text
}

/// The fields of a description, each behind its name.
fn fields_text(section: usize, description: &[u8]) -> String {
    match section {
        0 => numbers_text(&["target", "mask"], description),
        1 => numbers_text(&["lower", "upper", "mask"], description),
        2 => numbers_text(&["rise", "fall", "neither"], description),
        3 => sum_text(description),
        4 => state_text(description),
        _ => unreachable!("no such section"),
    }
}

fn numbers_text(names: &[&str], description: &[u8]) -> String {
    let numbers = description.chunks(4).map(|four| u32::from_le_bytes(four.try_into().expect("four bytes")));
    names.iter().zip(numbers).map(|(name, number)| format!(" {name} {number:08X}")).collect()
}

fn sum_text(operations: &[u8]) -> String {
    const STAGES: [&str; 11] = ["ab", "c", "d", "e", "fg", "h", "i", "j", "mid1", "mid2", "final"];
    let name = |code: u8| OPERATIONS[usize::from(code)];
    STAGES.iter().zip(operations).map(|(stage, &code)| format!(" {stage} {}", name(code))).collect()
}

/// The else state is a slot, so it is in decimal; of the flags those that are 1 are named.
fn state_text(description: &[u8]) -> String {
    let (number, else_state, flags) = sheet::state(description);
    let mut text = format!(" number {number:08X} else {else_state} flags");
    for (name, flag) in FLAGS.iter().zip(flags) {
        if flag == 1 {
            let _ = write!(text, " {name}");
        }
    }
    if flags == [0; 8] {
        text.push_str(" none");
    }
    text
}

/// The commands one to a line: offset, bytes, what they are.
fn commands_text(commands: &[u8]) -> String {
    let mut text = String::new();
    for (n, command) in commands.chunks(5).enumerate() {
        let number = u32::from_le_bytes(command[1..].try_into().expect("four bytes"));
        let what = if command[0] == 0x9E { format!("select {number:02X}") } else { format!("  {number:08X}") };
        let _ = writeln!(text, "{:>4}  {}  {what}", 5 * n, hex(command));
    }
    text
}

/// What reading a sheet's commands back gives.
fn back(commands: &[u8]) -> Vec<u8> {
    let mut out = vec![0; LONGEST_SHEET];
    let length = read(commands, &mut out).expect("the commands of an accepted sheet");
    out.truncate(length);
    out
}

fn noticed(old: &Setup, new: &Setup) -> Vec<u8> {
    let mut out = vec![0; LONGEST_NOTICE];
    let length = notice(&old.sheet(), &new.sheet(), &mut out).expect("two accepted sheets");
    out.truncate(length);
    out
}

/// A recording of the lift's lines, which is stored and not made.
const RECORDING: &[u8] = include_bytes!("../../../examples/lift.words");

/// The words that a sheet takes of a recording, in a fresh run.
fn taken(setup: &Setup, recording: &[u8]) -> Vec<u8> {
    let words: Vec<u32> =
        recording.chunks_exact(4).map(|four| u32::from_le_bytes(four.try_into().expect("four bytes"))).collect();
    let mut out = vec![0; words.len()];
    let (length, _) = bench(&setup.sheet(), &words, Run::default(), &mut out).expect("an accepted sheet, with room");
    out[..length].iter().flat_map(|word| word.to_le_bytes()).collect()
}

/// Every file: its name and its bytes.
pub fn files() -> Vec<(String, Vec<u8>)> {
    let mut files = Vec::new();
    for (name, setup) in [("old", old()), ("new", new()), ("lift", lift()), ("lift-revised", revised())] {
        let commands = make::stream(&setup.sheet());
        files.push((format!("{name}.sheet"), setup.sheet()));
        files.push((format!("{name}.sheet.txt"), sheet_text(&setup).into_bytes()));
        files.push((format!("{name}.commands.txt"), commands_text(&commands).into_bytes()));
        files.push((format!("{name}.back"), back(&commands)));
        files.push((format!("{name}.commands"), commands));
    }
    files.push(("old-new.notice".into(), noticed(&old(), &new())));
    files.push(("lift-revised.notice".into(), noticed(&lift(), &revised())));
    files.push(("lift.taken".into(), taken(&lift(), RECORDING)));
    files
}
