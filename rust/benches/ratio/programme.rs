//! The bench by the plain rules: what a sheet's detectors and sums need is made ready once, and each sample is asked
//! without a chain word and, but for what the run does, without a branch. Answers what `plain::bench` does.
use plain::{Refusal, Run, Set, DESCRIPTION, MOST, SIZE};

/// A sample's sources are two bytes, one for each half of a sum: there each source, a detector or a timer, has its bit.
const BIT: [u32; 14] = [0, 1, 2, 3, 4, 8, 9, 10, 11, 12, 5, 13, 6, 14];

struct Programme {
    terms: Vec<[u32; 3]>,  // target on the mask, mask, bit
    ranges: Vec<[u32; 4]>, // lower bound and distance of the upper one, both on the mask's lines, mask, bit
    edges: Vec<[u32; 4]>,  // rise, fall, neither, bit
    sums: [Sum; MOST[3] as usize],
    states: [u32; MOST[4] as usize],
}

/// The patterns of its half to which each mid says yes, and the final table.
#[derive(Clone, Copy, Default)]
struct Sum {
    mids: [Set; 2],
    last: u32,
}

impl Sum {
    fn matches(&self, sources: u32) -> bool {
        let mid = |half: usize, pattern: u32| (self.mids[half][pattern as usize / 64] >> (pattern % 64) & 1) as u32;
        self.last >> (mid(0, sources & 0xFF) + 2 * mid(1, sources >> 8)) & 1 == 1
    }
}

fn numbers<const N: usize>(description: &[u8]) -> [u32; N] {
    let four = |at: usize| description[4 * at..][..4].try_into().expect("four bytes");
    std::array::from_fn(|at| u32::from_le_bytes(four(at)))
}

impl Programme {
    /// Of an accepted sheet.
    fn of(sheet: &[u8]) -> Programme {
        let (terms, ranges, edges) = (Vec::with_capacity(10), Vec::with_capacity(2), Vec::with_capacity(2));
        let mut programme = Programme { terms, ranges, edges, sums: [Sum::default(); 48], states: [1; 16] };
        let mut left = sheet;
        for (section, size) in SIZE.into_iter().enumerate() {
            let (records, rest) = left[1..].split_at(usize::from(left[0]) * size);
            for record in records.chunks_exact(size) {
                programme.put(section, record[0].into(), &record[DESCRIPTION..]);
            }
            left = rest;
        }
        programme
    }

    fn put(&mut self, section: usize, slot: usize, description: &[u8]) {
        match section {
            0 => {
                let [target, mask] = numbers(description);
                self.terms.push([target & mask, mask, BIT[slot]]);
            }
            1 => {
                let [lower, upper, mask] = numbers(description);
                let (lower, upper) = (plain::scatter(lower, mask), plain::scatter(upper, mask));
                self.ranges.push([lower, upper - lower, mask, BIT[10 + slot]]);
            }
            2 => {
                let [rise, fall, neither] = numbers(description);
                self.edges.push([rise, fall, neither, BIT[12 + slot]]);
            }
            3 => {
                let sum = description.try_into().expect("a sum has eleven operations");
                let mids = [plain::mid_answers(sum, 0), plain::mid_answers(sum, 1)];
                self.sums[slot] = Sum { mids, last: plain::sum_words(sum)[0] };
            }
            4 => {
                let flags = description[5..].try_into().expect("a state has eight flags");
                self.states[slot] = plain::state_word(numbers::<1>(description)[0], description[4], flags);
            }
            _ => unreachable!("no such section"),
        }
    }

    fn sources(&self, earlier: u32, sample: u32) -> u32 {
        let terms = self.terms.iter().map(|&[target, mask, bit]| u32::from(sample & mask == target) << bit);
        let within = |&[lower, distance, mask, bit]: &[u32; 4]| {
            u32::from((sample & mask).wrapping_sub(lower) <= distance) << bit
        };
        let (rises, falls, stays) = (!earlier & sample, earlier & !sample, !(earlier ^ sample));
        let happens = |&[rise, fall, neither, bit]: &[u32; 4]| {
            u32::from(rise & rises | fall & falls | neither & stays != 0) << bit
        };
        terms.chain(self.ranges.iter().map(within)).chain(self.edges.iter().map(happens)).fold(0, |all, one| all | one)
    }

    /// Looks at one sample, and answers whether capture takes it.
    fn step(&self, run: &mut Run, earlier: u32, sample: u32) -> bool {
        let sources = self.sources(earlier, sample);
        let (word, sums) = (self.states[run.state as usize], &self.sums[3 * run.state as usize..][..3]);
        if sums[0].matches(sources) {
            run.count += 1;
            if run.count >= (word & 0xF_FFFF).max(1) {
                run.count = 0;
                run.ended = run.state == 15 || word >> 31 == 1;
                run.state += u32::from(!run.ended);
            }
        } else if sums[1].matches(sources) {
            (run.state, run.count) = (word >> 20 & 15, 0);
        }
        sums[2].matches(sources)
    }
}

/// For a fresh run, and room for all samples.
pub fn bench(sheet: &[u8], samples: &[u32], out: &mut [u32]) -> Result<(usize, Run), Refusal> {
    plain::check(sheet)?;
    let programme = Programme::of(sheet);
    let (mut run, mut taken) = (Run::default(), 0);
    let mut earlier = samples[0];
    for &sample in samples {
        if run.ended {
            break;
        }
        out[taken] = sample; // the next one overwrites it unless it is taken
        taken += usize::from(programme.step(&mut run, earlier, sample));
        earlier = sample;
    }
    run.earlier = Some(earlier);
    Ok((taken, run))
}
