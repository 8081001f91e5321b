//! What the buyer's demands say, tried on the plain implementation itself: by brute force where few lines are enough,
//! on random inputs elsewhere.
use plain::make::{self, Random, Setup};
use plain::*;

/// Samples worth trying: random ones and those around a description's numbers.
fn samples(random: &mut Random, near: &[u32]) -> Vec<u32> {
    let mut samples: Vec<u32> = (0..20).map(|_| random.mask()).collect();
    for &number in near {
        samples.extend([
            number,
            !number,
            number.wrapping_add(1),
            number.wrapping_sub(1),
            number ^ 1 << random.below(32),
        ]);
    }
    samples
}

/// The lowest bits of the number on the mask's lines.
fn scatter(number: u32, mask: u32) -> u32 {
    let (mut sample, mut rank) = (0, 0);
    for line in 0..32 {
        if mask >> line & 1 == 1 {
            sample |= (number >> rank & 1) << line;
            rank += 1;
        }
    }
    sample
}

#[test]
fn words_run_in_the_model_hit_by_the_plain_rule() {
    let mut random = Random(1);
    let mut rarer = [0; 3]; // hits of terms and ranges, misses of edges: the rarer answer of each
    for _ in 0..20_000 {
        let (target, mask) = (random.u32(), random.mask());
        let words = term_words(target, mask);
        for sample in samples(&mut random, &[target, target & mask]) {
            assert_eq!(run_term(&words, sample), Ok(term_hit(target, mask, sample)));
            rarer[0] += usize::from(term_hit(target, mask, sample));
        }
        let [lower, upper, mask] = make::range(&mut random);
        let words = range_words(lower, upper, mask);
        let near: Vec<u32> = [lower, lower - 1, upper, upper.wrapping_add(1)].map(|x| scatter(x, mask)).to_vec();
        for sample in samples(&mut random, &near) {
            assert_eq!(run_range(&words, sample), Ok(range_hit(lower, upper, mask, sample)));
            rarer[1] += usize::from(range_hit(lower, upper, mask, sample));
        }
        let [rise, fall, neither] = make::edge(&mut random);
        let words = edge_words(rise, fall, neither);
        for earlier in samples(&mut random, &[]) {
            for later in [earlier, !earlier, earlier ^ 1 << random.below(32), random.mask(), neither, !earlier & !rise]
            {
                assert_eq!(run_edge(&words, earlier, later), Ok(edge_hit(rise, fall, neither, earlier, later)));
                rarer[2] += usize::from(!edge_hit(rise, fall, neither, earlier, later));
            }
        }
    }
    assert!(rarer.iter().all(|&count| count > 10_000), "both answers came: {rarer:?}");
}

/// Every accepted range over the lines of `within`.
fn ranges(within: u32) -> Vec<(u32, u32, u32)> {
    let mut all = Vec::new();
    for mask in 1..=within {
        if mask & !within == 0 {
            let biggest = (1 << mask.count_ones()) - 1;
            for lower in 1..=biggest {
                all.extend((lower..=biggest).map(|upper| (lower, upper, mask)));
            }
        }
    }
    all
}

#[test]
fn ranges_are_told_apart_exactly_when_some_sample_does() {
    let all = ranges(0b1111);
    let (mut words, mut alike) = (0, 0);
    for &old in &all {
        for &new in &all {
            let tells = |&s: &u32| range_hit(old.0, old.1, old.2, s) != range_hit(new.0, new.1, new.2, s);
            let least = (0..16).find(tells);
            assert_eq!(least_telling_range(old, new), least, "{old:?} {new:?}");
            if least.is_none() {
                alike += 1;
                words += usize::from(range_words(old.0, old.1, old.2) != range_words(new.0, new.1, new.2));
            } else {
                assert_ne!(range_words(old.0, old.1, old.2), range_words(new.0, new.1, new.2));
            }
        }
    }
    // with the lines spread out, the samples spread out with them
    for &old in all.iter().step_by(7) {
        for &new in all.iter().step_by(5) {
            let spread = |(lower, upper, mask): (u32, u32, u32)| (lower, upper, scatter(mask, 0x8410_0001));
            let least = least_telling_range(old, new).map(|sample| scatter(sample, 0x8410_0001));
            assert_eq!(least_telling_range(spread(old), spread(new)), least);
        }
    }
    assert!(alike > all.len() && words > 0, "{alike} alike, {words} of them with other words");
}

#[test]
fn terms_are_told_apart_by_the_least_sample() {
    for both in 0..1u32 << 16 {
        let [t, m, u, n] = [0, 4, 8, 12].map(|at| both >> at & 15);
        let least = (0..16).find(|&s| term_hit(t, m, s) != term_hit(u, n, s));
        assert_eq!(least_telling_term((t, m), (u, n)), least);
        assert_eq!(least.is_none(), term_words(t, m) == term_words(u, n));
        // at other lines
        let spread = |x| scatter(x, 0xA000_0240);
        let far = least_telling_term((spread(t), spread(m)), (spread(u), spread(n)));
        assert_eq!(far, least.map(spread));
    }
}

/// Rise, fall, neither.
type Edge = (u32, u32, u32);

/// What a line may ask for is a number: 1 for rise, 2 for fall, 4 for neither, added up. All are accepted but 7.
const WISHES: [u32; 7] = [0, 1, 2, 3, 4, 5, 6];

/// The wishes that leave one event out: there is but one way to miss.
const TWO_WISHES: [u32; 3] = [3, 5, 6];

/// The edge with this wish on one line.
fn with_wish(edge: Edge, line: usize, wish: u32) -> Edge {
    let set = |lines: u32, event: u32| lines & !(1 << line) | (wish >> event & 1) << line;
    (set(edge.0, 0), set(edge.1, 1), set(edge.2, 2))
}

/// An edge with one of these wishes on each of the 32 lines.
fn edge_of(random: &mut Random, wishes: &[u32]) -> Edge {
    (0..32).fold((0, 0, 0), |edge, line| with_wish(edge, line, random.pick(wishes)))
}

/// Every accepted edge that asks on lines 0 and 1 alone: 7 x 7.
fn edges_of_two_lines() -> Vec<Edge> {
    let edge = |lower, upper| with_wish(with_wish((0, 0, 0), 0, lower), 1, upper);
    WISHES.iter().flat_map(|&lower| WISHES.map(|upper| edge(lower, upper))).collect()
}

fn hits((rise, fall, neither): Edge, earlier: u32, later: u32) -> bool {
    edge_hit(rise, fall, neither, earlier, later)
}

/// Whether two edges are told apart, either way round: by two samples on which one hits and the other misses, and
/// exactly if their words differ.
fn edges_are_told_apart(old: Edge, new: Edge) -> bool {
    let told = telling_edge(old, new);
    for (earlier, later) in told.into_iter().chain(telling_edge(new, old)) {
        assert_ne!(hits(old, earlier, later), hits(new, earlier, later), "{old:X?} {new:X?} {earlier:X} {later:X}");
    }
    assert_eq!(told.is_some(), telling_edge(new, old).is_some(), "{old:X?} {new:X?}");
    let words = |(rise, fall, neither)| edge_words(rise, fall, neither);
    assert_eq!(told.is_some(), words(old) != words(new), "{old:X?} {new:X?}");
    told.is_some()
}

#[test]
fn edges_are_told_apart_exactly_when_some_pair_does() {
    let all = edges_of_two_lines();
    let mut told = 0;
    for &old in &all {
        for &new in &all {
            // lines 2 to 31 ask for nothing, so what they do does not matter
            let some = (0..16).any(|pair| hits(old, pair >> 2, pair & 3) != hits(new, pair >> 2, pair & 3));
            assert_eq!(edges_are_told_apart(old, new), some, "{old:X?} {new:X?}");
            // at other lines: of one table, of one word, far apart
            for lines in [0xC000_0000, 0x0000_0A00, 0x8000_0001] {
                let spread = |edge: Edge| (scatter(edge.0, lines), scatter(edge.1, lines), scatter(edge.2, lines));
                assert_eq!(edges_are_told_apart(spread(old), spread(new)), some, "{old:X?} {new:X?}");
            }
            told += usize::from(some);
        }
    }
    // any two that are not the same
    assert_eq!((all.len(), told), (49, 49 * 48));
}

/// On each line each wish becomes each other, whatever the other 31 lines ask for.
#[test]
fn edges_are_told_apart_by_every_line() {
    let mut random = Random(13);
    let mut told = 0;
    for all in 0..20 * 32 * 49 {
        let (line, before, after) = (all / 49 % 32, WISHES[all / 7 % 7], WISHES[all % 7]);
        let others = edge_of(&mut random, if all % 2 == 0 { &WISHES } else { &TWO_WISHES });
        let (old, new) = (with_wish(others, line, before), with_wish(others, line, after));
        assert_eq!(edges_are_told_apart(old, new), before != after, "{old:X?} {new:X?}");
        told += usize::from(before != after);
    }
    assert_eq!(told, 20 * 32 * 42);
}

/// Two edges of all 32 lines are told apart by what is given, unless they are the same.
#[test]
fn any_two_edges_are_told_apart() {
    let mut random = Random(14);
    let mut made = [0; 8]; // how often a line of a random edge has each wish
    for round in 0..60_000 {
        let [old, new] = [(); 2].map(|()| match round % 3 {
            0 => make::edge(&mut random).into(),
            1 => edge_of(&mut random, &WISHES),
            _ => edge_of(&mut random, &TWO_WISHES),
        });
        assert_eq!(edges_are_told_apart(old, new), old != new);
        assert!(!edges_are_told_apart(old, old));
        if round % 3 == 0 {
            for line in 0..32 {
                let [rise, fall, neither] = [old.0, old.1, old.2].map(|lines| (lines >> line & 1) as usize);
                made[rise + 2 * fall + 4 * neither] += 1;
            }
        }
    }
    // of 640,000 lines each wish has many, and all three none
    assert!(made[..7].iter().all(|&lines| lines > 40_000) && made[7] == 0, "{made:?}");
}

/// Both ways to tell two sums apart, and that the pattern found does so. Answers whether there was one.
fn sums_are_told_apart(old: &[u8; 11], new: &[u8; 11]) -> bool {
    let least = scan_telling_sum(old, new);
    assert_eq!(telling_sum(old, new), least, "{old:?} {new:?}");
    assert_eq!(telling_sum(new, old), least, "{new:?} {old:?}");
    if let Some(sources) = least {
        assert_ne!(run_sum(&sum_words(old), sources), run_sum(&sum_words(new), sources), "{old:?} {new:?}");
    }
    least.is_some()
}

#[test]
fn sums_are_told_apart_exactly_when_some_pattern_does() {
    let mut random = Random(6);
    let mut alike = [0; 2]; // of any two, and of two that differ in one operation
    for _ in 0..2_000 {
        let (old, new) = (make::sum(&mut random), make::sum(&mut random));
        alike[0] += usize::from(!sums_are_told_apart(&old, &new));
        alike[1] += usize::from(!sums_are_told_apart(&old, &make::near_sum(&mut random, old)));
        assert_eq!(telling_sum(&old, &old), None);
    }
    assert!((100..400).contains(&alike[0]) && (600..1_400).contains(&alike[1]), "{alike:?}");
    for round in 0..100 * make::ALIKE_WAYS {
        let (old, new) = make::alike_sums(&mut random, round % make::ALIKE_WAYS);
        assert!(!sums_are_told_apart(&old, &new), "{old:?} {new:?}");
        assert_ne!(sum_words(&old), sum_words(&new), "sums that match alike may have different words");
    }
}

/// Of every two operations at every place there is a sum that does something else with the one than with the other.
#[test]
fn sums_are_told_apart_by_every_operation() {
    let mut random = Random(7);
    for all in 0..11 * 10 * 10 {
        let (place, before, after) = (all / 100, (all / 10 % 10) as u8, (all % 10) as u8);
        let told = (0..200).any(|_| {
            let [mut old, mut new] = [make::sum(&mut random); 2];
            (old[place], new[place]) = (before, after);
            before != after && sums_are_told_apart(&old, &new)
        });
        assert_eq!(told, before != after, "{before} and {after} at {place}");
    }
}

#[test]
fn states_have_the_same_word_exactly_when_no_field_differs() {
    let mut random = Random(5);
    let mut state = || {
        // few values of each field, so that the same ones come often
        let flags = random.pick(&[0, 1, 0x40, 0x80]);
        let fields: (u32, u8) = (random.pick(&[0, 1, 0xF_FFFF]), random.pick(&[0, 1, 15]));
        (fields.0, fields.1, std::array::from_fn(|bit| flags >> bit & 1))
    };
    let mut alike = 0;
    for _ in 0..20_000 {
        let (old, new) = (state(), state());
        assert_eq!(old == new, state_word(old.0, old.1, old.2) == state_word(new.0, new.1, new.2), "{old:?} {new:?}");
        alike += usize::from(old == new);
    }
    assert!((200..2_000).contains(&alike), "{alike}");
}

#[test]
fn reading_back_gives_what_writes_the_words() {
    let mut random = Random(2);
    for _ in 0..20_000 {
        let (target, mask) = (random.u32(), random.mask());
        assert_eq!(read_term(&term_words(target, mask)), Some((target & mask, mask)));
        let [lower, upper, mask] = make::range(&mut random);
        assert_eq!(read_range(&range_words(lower, upper, mask)), Some((lower, upper, mask)));
        let [rise, fall, neither] = make::edge(&mut random);
        assert_eq!(read_edge(&edge_words(rise, fall, neither)), Some((rise, fall, neither)));
        let operations = std::array::from_fn(|_| random.below(10) as u8);
        assert_eq!(read_sum(&sum_words(&operations)), Some(operations));
        // every word is that of one state
        let word = if random.one_in(4) { random.mask() } else { random.u32() };
        let (number, else_state, flags) = read_state(word);
        assert!(number <= 0xF_FFFF && else_state <= 15 && flags.iter().all(|&flag| flag <= 1));
        assert_eq!(state_word(number, else_state, flags), word);
    }
    // a range that no sheet may hold is not read, though its tables are known ones
    for (lower, upper, mask) in [(0, 3, 3), (2, 1, 3), (0, 0, 0), (4, 3, 3)] {
        assert_eq!(read_range(&range_words(lower, upper, mask)), None);
    }
}

#[test]
fn a_table_is_read_exactly_if_some_description_writes_it() {
    let mut known = [0; 2];
    for table in 0..=0xFFFF {
        let term = (0..256).any(|both| term_words(both & 15, both >> 4)[3] & 0xFFFF == table);
        assert_eq!(read_term(&[u32::MAX, u32::MAX, u32::MAX, 0xFFFF_0000 | table]).is_some(), term);
        known[0] += usize::from(term);
        let last = (0..10).any(|code| sum_words(&[0, 0, 0, 0, 0, 0, 0, 0, 0, 0, code])[0] == table);
        assert_eq!(read_sum(&[table, 0, 0, 0, 0, 0]).is_some(), last);
        known[1] += usize::from(last);
    }
    assert_eq!(known, [81, 10]);
}

/// Every table, in the low and the high half of every word: read as its wishes if it has some, among whatever tables.
#[test]
fn an_edges_table_is_read_exactly_if_wishes_make_it() {
    let mut random = Random(15);
    // what a table means: at each address, whether one of its two lines shows what it asks for
    let table = |edge| (0..16).fold(0, |table, n| table | u32::from(hits(edge, n >> 2, n & 3)) << n);
    let all: std::collections::BTreeMap<u32, Edge> =
        edges_of_two_lines().into_iter().map(|edge| (table(edge), edge)).collect();
    assert_eq!((all.len(), all.get(&0xFFFF)), (49, None), "all different");
    let mut read = [0; 16];
    for (place, read) in read.iter_mut().enumerate() {
        for table in 0..=0xFFFF {
            let [rise, fall, neither] = make::edge(&mut random).map(|lines| lines & !(3 << (2 * place)));
            let mut words = edge_words(rise, fall, neither);
            words[7 - place / 2] |= table << (place % 2 * 16);
            let at = |lines: u32| lines << (2 * place);
            let want = all.get(&table).map(|edge| (rise | at(edge.0), fall | at(edge.1), neither | at(edge.2)));
            let got = read_edge(&words);
            assert_eq!(got, want, "table {table:04X} at {place}");
            *read += usize::from(got.is_some());
        }
    }
    assert_eq!(read, [49; 16]);
}

#[test]
fn a_stream_is_read_exactly_if_its_sheet_writes_it() {
    let mut random = Random(3);
    let (mut done, mut refused) = (0, [0; 19]);
    for _ in 0..40_000 {
        let taken = random.below(9);
        let setup = Setup::random(&mut random, taken);
        let stream = make::damaged_stream(&mut random, &setup);
        let mut sheet = vec![0; LONGEST_SHEET];
        match read(&stream, &mut sheet) {
            Ok(length) => {
                sheet.truncate(length);
                assert_eq!(check(&sheet), Ok(()));
                assert_eq!(make::stream(&sheet), stream);
                done += 1;
            }
            Err(refusal) => {
                assert!(refusal.place <= stream.len());
                refused[refusal.number as usize] += 1;
            }
        }
    }
    assert!(done > 4_000 && (13..=16).all(|number| refused[number] > 1_000), "{done} {refused:?}");
}

#[test]
fn notices_have_every_line() {
    let mut random = Random(4);
    let mut met = std::collections::BTreeMap::<String, usize>::new();
    for round in 0..10_000 {
        let taken = random.below(9);
        let old = Setup::random(&mut random, taken);
        let new = old.near(&mut random);
        let (old, new) = (old.sheet(), new.sheet());
        let mut out = vec![0; LONGEST_NOTICE];
        let length = notice(&old, &new, &mut out).expect("two accepted sheets");
        // to try all patterns takes long where none tells
        let tell_sums = if round % 20 == 0 { scan_telling_sum } else { telling_sum };
        notice_agrees(&old, &new, &out[..length], tell_sums).expect("its own notice");
        for line in String::from_utf8(out[..length].to_vec()).unwrap().lines() {
            *met.entry(format!("{} {}", &line[..4], &line[8..line.len().min(12)])).or_default() += 1;
        }
    }
    let kinds = ["TERM", "RANG", "EDGE", "SUMS", "STAT"];
    let verdicts: [&[&str]; SECTIONS] = [
        &["NEW", "GONE", "NAME", "ALTR", "WORD"],
        &["NEW", "GONE", "NAME", "ALTR", "WORD"],
        &["NEW", "GONE", "NAME", "ALTR"],
        &["NEW", "GONE", "NAME", "ALTR", "WORD"],
        &["NEW", "GONE", "NAME", "ALTR"],
    ];
    for (kind, verdicts) in kinds.iter().zip(verdicts) {
        for verdict in verdicts {
            let count = met.remove(&format!("{kind} {verdict}")).unwrap_or(0);
            assert!(count > 100, "{kind} {verdict}: {count}");
        }
    }
    assert!(met.is_empty(), "{met:?}");
}

/// Damage to an edge that asks for nothing: often a line that asks for all three, and often one that leaves one out.
#[test]
fn damaged_edges_are_refused_or_just_not() {
    let mut random = Random(16);
    let mut setup = Setup::default();
    setup.sections[2].push(make::record(0, "NOTHING", &[0; 12]));
    let (mut refused, mut asked) = (0, [0; 2]); // with 9; accepted, and asking on a line for neither and rise, and fall
    for _ in 0..20_000 {
        let sheet = make::damaged_sheet(&mut random, &setup);
        match check(&sheet) {
            Err(refusal) => refused += usize::from(refusal.number == 9),
            Ok(()) => {
                // three counts and the record's slot and label stand before it
                let edge = &sheet[3 + DESCRIPTION..];
                let lines = |at: usize| u32::from_le_bytes(edge[at..at + 4].try_into().expect("four bytes"));
                let (rise, fall, neither) = (lines(0), lines(4), lines(8));
                asked[0] += usize::from(neither & rise != 0);
                asked[1] += usize::from(neither & fall != 0);
            }
        }
    }
    assert!(refused > 500 && asked.iter().all(|&times| times > 200), "{refused} {asked:?}");
}
