//! The alteration notice: one that the rules allow, and the test of any other.
use crate::detect::scatter;
use crate::sheet::{above, full, parts, three, two, DESCRIPTION, SECTIONS, SIZE};
use crate::{edge_hit, range_hit, run_sum, sum_words, telling_sum, term_hit, Refusal};

/// Every slot has a line NAME and a line ALTR.
pub const LONGEST_NOTICE: usize = full(above(2 * "TERM 00 NAME\n".len(), SHOWN));

/// What ALTR shows by section: a space and eight digits for a sample, four for the sources.
const SHOWN: [usize; SECTIONS] = [9, 9, 18, 5, 0];

/// A refused notice: the sheet that the refusal is of, or the bytes needed (12 is of neither).
#[derive(Clone, Copy, Debug, PartialEq, Eq)]
pub enum NoticeRefusal {
    Old(Refusal),
    New(Refusal),
    Short { needed: usize },
}

// ---- what tells two apart ----

/// Two terms (target, mask): the least sample that tells them apart, or none.
pub fn least_telling_term(old: (u32, u32), new: (u32, u32)) -> Option<u32> {
    match (least_hit_of_one(old, new), least_hit_of_one(new, old)) {
        (Some(old), Some(new)) => Some(old.min(new)),
        (old, new) => old.or(new),
    }
}

/// The least sample that hits the one term and misses the other.
fn least_hit_of_one(one: (u32, u32), other: (u32, u32)) -> Option<u32> {
    let least = one.0 & one.1;
    if !term_hit(other.0, other.1, least) {
        return Some(least);
    }
    // it misses as soon as one of the lines that only the other looks at is changed
    let free = other.1 & !one.1;
    (free != 0).then_some(least | free & free.wrapping_neg())
}

/// A range with its bounds on the masked lines: a sample hits when its masked lines, as a number, lie within them.
struct OnLines {
    lower: u32,
    upper: u32,
    mask: u32,
}

impl OnLines {
    fn new((lower, upper, mask): (u32, u32, u32)) -> Self {
        OnLines { lower: scatter(lower, mask), upper: scatter(upper, mask), mask }
    }

    /// What the lines of `chosen` decide: `MISS`, `HIT`, or the bounds that a sample still touches.
    fn state(&self, sample: u32, chosen: u32) -> u32 {
        let (number, lower, upper) = (sample & self.mask & chosen, self.lower & chosen, self.upper & chosen);
        if number < lower || number > upper {
            return MISS;
        }
        u32::from(number == lower) + 2 * u32::from(number == upper)
    }

    /// The least hit among the samples that have these values on the chosen lines, which do not decide for a miss.
    fn least_hit(&self, sample: u32, chosen: u32) -> u32 {
        if self.state(sample, chosen) & 1 == 1 {
            sample | self.lower & !chosen
        } else {
            sample
        }
    }
}

const HIT: u32 = 0; // within both bounds, whatever the other lines are; 1 to 3: the bounds touched
const MISS: u32 = 4;

/// Two accepted ranges (lower, upper, mask): a sample that tells them apart (here the least), or none. Lines are chosen
/// from the highest down, 0 before 1, until only one of the two can still be hit; two states that came before at the
/// same line lead to nothing again.
pub fn least_telling_range(old: (u32, u32, u32), new: (u32, u32, u32)) -> Option<u32> {
    let (old, new) = (OnLines::new(old), OnLines::new(new));
    let lines = old.mask | new.mask;
    let mut tried = [0u32; 33]; // by the lowest chosen line: one bit for each two states
    let (mut sample, mut chosen) = (0, 0);
    loop {
        let states = (old.state(sample, chosen), new.state(sample, chosen));
        match states {
            (MISS, MISS) | (HIT, HIT) => {}
            (MISS, _) => return Some(new.least_hit(sample, chosen)),
            (_, MISS) => return Some(old.least_hit(sample, chosen)),
            (a, b) => {
                let next = lines & !chosen;
                let before = &mut tried[chosen.trailing_zeros() as usize];
                let both = 1 << (5 * a + b);
                if next != 0 && *before & both == 0 {
                    *before |= both;
                    chosen = u32::MAX << next.ilog2();
                    continue;
                }
            }
        }
        // back: the lowest chosen line that is 0 becomes 1
        let zeros = lines & chosen & !sample;
        if zeros == 0 {
            return None;
        }
        chosen = u32::MAX << zeros.trailing_zeros();
        sample = (sample | zeros & zeros.wrapping_neg()) & chosen;
    }
}

/// Two accepted edges (rise, fall, neither): an earlier and a later sample that tell them apart, or none.
pub fn telling_edge(old: (u32, u32, u32), new: (u32, u32, u32)) -> Option<(u32, u32)> {
    asked_by_one(old, new).or_else(|| asked_by_one(new, old))
}

/// Two samples that hit the one edge and miss the other: on one line an event that the one asks for and the other does
/// not, on every line an event that the other does not ask for. There always is such an event, for no line asks for all
/// three; so this finds something as soon as the one asks for anything that the other does not.
fn asked_by_one(one: (u32, u32, u32), other: (u32, u32, u32)) -> Option<(u32, u32)> {
    // the lowest line on which the one asks for something that the other does not
    let (rise, fall, neither) = (one.0 & !other.0, one.1 & !other.1, one.2 & !other.2);
    let lines = rise | fall | neither;
    let line = lines & lines.wrapping_neg();
    // every other line stays 0; where the other asks for that, it rises; where the other asks for both, it falls
    let rises = other.2 & !other.0 & !line | rise & line;
    let falls = other.2 & other.0 & !line | fall & !rise & line;
    // a line that falls is 1 earlier, one that rises is 1 later, and all else is 0
    (line != 0).then_some((falls, rises))
}

// ---- the lines ----

/// What a line says of its slot.
enum Verdict<'a> {
    New,
    Gone,
    Name,
    Word,
    /// ALTR of a state, which shows no sample.
    Fields,
    Altr {
        shown: Telling,
        old: &'a [u8],
        new: &'a [u8],
    },
}

/// A telling sample, an earlier and a later one, or a pattern of the sources.
#[derive(Clone, Copy)]
enum Telling {
    One(u32),
    Two(u32, u32),
    Sources(u16),
}

/// How two sums are told apart: [`telling_sum`], or [`scan_telling_sum`](crate::scan_telling_sum), which runs them on
/// every pattern and takes long where none tells.
pub type TellSums = fn(&[u8; 11], &[u8; 11]) -> Option<u16>;

/// The operations of a sum.
fn operations(description: &[u8]) -> &[u8; 11] {
    description.try_into().expect("a sum has eleven operations")
}

const KIND: [&[u8; 4]; SECTIONS] = [b"TERM", b"RANG", b"EDGE", b"SUMS", b"STAT"];

/// Every line that two accepted sheets give, by section and then slot.
fn each_line<'a>(
    old: &[&'a [u8]; SECTIONS],
    new: &[&'a [u8]; SECTIONS],
    tell_sums: TellSums,
    mut say: impl FnMut(usize, u8, Verdict<'a>),
) {
    for section in 0..SECTIONS {
        let mut before = old[section].chunks_exact(SIZE[section]).peekable();
        let mut after = new[section].chunks_exact(SIZE[section]).peekable();
        while let Some(slot) = before.peek().into_iter().chain(after.peek()).map(|record| record[0]).min() {
            let old = before.next_if(|record| record[0] == slot);
            let new = after.next_if(|record| record[0] == slot);
            match (old, new) {
                (Some(old), Some(new)) => {
                    if old[1..DESCRIPTION] != new[1..DESCRIPTION] {
                        say(section, slot, Verdict::Name);
                    }
                    if old[DESCRIPTION..] != new[DESCRIPTION..] {
                        say(section, slot, changed(section, &old[DESCRIPTION..], &new[DESCRIPTION..], tell_sums));
                    }
                }
                (None, _) => say(section, slot, Verdict::New),
                (_, None) => say(section, slot, Verdict::Gone),
            }
        }
    }
}

/// What is said of two descriptions that are not the same bytes.
fn changed<'a>(section: usize, old: &'a [u8], new: &'a [u8], tell_sums: TellSums) -> Verdict<'a> {
    let told = match section {
        0 => least_telling_term(two(old), two(new)).map(Telling::One),
        1 => least_telling_range(three(old), three(new)).map(Telling::One),
        2 => telling_edge(three(old), three(new)).map(|(earlier, later)| Telling::Two(earlier, later)),
        3 => tell_sums(operations(old), operations(new)).map(Telling::Sources),
        4 => return Verdict::Fields,
        _ => unreachable!("no such section"),
    };
    match told {
        Some(shown) => Verdict::Altr { shown, old, new },
        None => Verdict::Word,
    }
}

// ---- the text ----

/// The notice while it is written: the longest one has room.
struct Page {
    bytes: [u8; LONGEST_NOTICE],
    length: usize,
}

impl Page {
    fn put(&mut self, bytes: &[u8]) {
        self.bytes[self.length..self.length + bytes.len()].copy_from_slice(bytes);
        self.length += bytes.len();
    }

    /// A space and so many digits.
    fn hex<const DIGITS: usize>(&mut self, number: u32) {
        let digit = |place: usize| b"0123456789ABCDEF"[(number >> (4 * (DIGITS - 1 - place)) & 15) as usize];
        self.put(b" ");
        self.put(&std::array::from_fn::<u8, DIGITS, _>(digit));
    }

    fn head(&mut self, section: usize, slot: u8) {
        self.put(KIND[section]);
        self.put(&[b' ', b'0' + slot / 10, b'0' + slot % 10, b' ']);
    }

    fn line(&mut self, section: usize, slot: u8, verdict: &Verdict) {
        self.head(section, slot);
        match verdict {
            Verdict::New => self.put(b"NEW"),
            Verdict::Gone => self.put(b"GONE"),
            Verdict::Name => self.put(b"NAME"),
            Verdict::Word => self.put(b"WORD"),
            Verdict::Fields => self.put(b"ALTR"),
            Verdict::Altr { shown, .. } => {
                self.put(b"ALTR");
                match *shown {
                    Telling::One(sample) => self.hex::<8>(sample),
                    Telling::Two(earlier, later) => {
                        self.hex::<8>(earlier);
                        self.hex::<8>(later);
                    }
                    Telling::Sources(sources) => self.hex::<4>(sources.into()),
                }
            }
        }
        self.put(b"\n");
    }
}

/// Writes a notice that the rules allow.
pub fn notice(old: &[u8], new: &[u8], out: &mut [u8]) -> Result<usize, NoticeRefusal> {
    let old = parts(old).map_err(NoticeRefusal::Old)?;
    let new = parts(new).map_err(NoticeRefusal::New)?;
    let mut page = Page { bytes: [0; LONGEST_NOTICE], length: 0 };
    each_line(&old, &new, telling_sum, |section, slot, verdict| page.line(section, slot, &verdict));
    let Some(room) = out.get_mut(..page.length) else {
        return Err(NoticeRefusal::Short { needed: page.length });
    };
    room.copy_from_slice(&page.bytes[..page.length]);
    Ok(page.length)
}

/// Whether a text is a notice of these two sheets by the rules. All of it is fixed but what an ALTR line of a range, an
/// edge or a sum shows; of that it is asked that it tells the two apart. Says what is wrong.
pub fn notice_agrees(old: &[u8], new: &[u8], text: &[u8], tell_sums: TellSums) -> Result<(), String> {
    let old = parts(old).map_err(|refusal| format!("the old sheet is refused: {refusal:?}"))?;
    let new = parts(new).map_err(|refusal| format!("the new sheet is refused: {refusal:?}"))?;
    let mut rest = text;
    let mut wrong = None;
    each_line(&old, &new, tell_sums, |section, slot, verdict| {
        if wrong.is_some() {
            return;
        }
        let mut want = Page { bytes: [0; LONGEST_NOTICE], length: 0 };
        want.line(section, slot, &verdict);
        let want = &want.bytes[..want.length];
        let (line, after) = rest.split_at(want.len().min(rest.len()));
        let good = match verdict {
            // a term's sample is the least one, so it too is fixed
            Verdict::Altr { old, new, .. } if section != 0 => {
                line.len() == want.len() && shows(section, old, new, line, want)
            }
            _ => line == want,
        };
        if !good {
            let (line, want) = (String::from_utf8_lossy(line), String::from_utf8_lossy(want));
            wrong = Some(format!("at {}: {line:?}, where the rules give {want:?}", text.len() - rest.len()));
        }
        rest = after;
    });
    match wrong {
        Some(wrong) => Err(wrong),
        None if !rest.is_empty() => Err(format!("{} bytes after the last line", rest.len())),
        None => Ok(()),
    }
}

/// Whether a line is the wanted one but for what it shows, and this tells the two apart: by the plain rule, of a sum by
/// the model.
fn shows(section: usize, old: &[u8], new: &[u8], line: &[u8], want: &[u8]) -> bool {
    const FIRST: usize = "RANG 00 ALTR ".len();
    let (head, shown) = line.split_at(FIRST);
    if head != &want[..FIRST] || !shown.ends_with(b"\n") {
        return false;
    }
    match section {
        1 => {
            let hit = |(lower, upper, mask), sample| range_hit(lower, upper, mask, sample);
            number(&shown[..8]).is_some_and(|sample| hit(three(old), sample) != hit(three(new), sample))
        }
        2 => {
            let hit = |(rise, fall, neither), (earlier, later)| edge_hit(rise, fall, neither, earlier, later);
            let samples = number(&shown[..8]).zip(number(&shown[9..17]));
            shown[8] == b' ' && samples.is_some_and(|samples| hit(three(old), samples) != hit(three(new), samples))
        }
        _ => {
            let hit = |sum, sources| run_sum(&sum_words(operations(sum)), sources);
            number(&shown[..4]).is_some_and(|sources| hit(old, sources as u16) != hit(new, sources as u16))
        }
    }
}

/// The number that capital hex digits are.
fn number(digits: &[u8]) -> Option<u32> {
    digits.iter().try_fold(0, |number: u32, digit| match digit {
        b'0'..=b'9' => Some(number << 4 | u32::from(digit - b'0')),
        b'A'..=b'F' => Some(number << 4 | u32::from(digit - b'A' + 10)),
        _ => None,
    })
}
