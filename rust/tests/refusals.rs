//! How a refusal is said, and that it can be handed on as an error.
use plain::make::{one_section, record};
use std::error::Error;
use voltamar::{bench, check, notice, Refusal, Run, LABEL, MOST_SAMPLES, SECTIONS};

#[test]
fn refusals_are_errors() {
    fn judged(sheet: &[u8]) -> Result<(), Box<dyn Error>> {
        check(sheet)?;
        notice(sheet, &[0; SECTIONS + 1], &mut [])?;
        Ok(())
    }
    assert_eq!(judged(&[0, 3]).unwrap_err().to_string(), "refused 2 at 1: count above the section's most");
    let short = format!("refused 1 at {}: count or record incomplete", SECTIONS - 1);
    assert_eq!(judged(&[0; SECTIONS - 1]).unwrap_err().to_string(), short);
    let long = format!("new sheet: refused 11 at {SECTIONS}: bytes left over");
    assert_eq!(judged(&[0; SECTIONS]).unwrap_err().to_string(), long);
    // a state whose else state is 16
    let sheet = one_section(4, vec![record(0, "STATE", &[1, 0, 0, 0, 16, 0, 0, 0, 0, 0, 0, 0, 0])]);
    assert_eq!(judged(&sheet).unwrap_err().to_string(), "refused 18 at 5: a state's field too big for its place");
    // an edge that asks for everything on line 0, and one that does not ask for a fall
    let sheet = |fall| one_section(2, vec![record(0, "DOORMOVE", &[1, 0, 0, 0, fall, 0, 0, 0, 1, 0, 0, 0])]);
    let all = "refused 9 at 3: rise, fall and neither together on a line";
    assert_eq!(judged(&sheet(1)).unwrap_err().to_string(), all);
    assert_eq!(check(&sheet(0)), Ok(()));
    // two terms with one label
    let sheet = |name| one_section(0, vec![record(0, "DOORLOCK", &[0; 8]), record(1, name, &[0; 8])]);
    let (same, second) = ("label the same as an earlier one of its section", 1 + (1 + LABEL + 8));
    let same = format!("refused 19 at {second}: {same}");
    assert_eq!(judged(&sheet("DOORLOCK")).unwrap_err().to_string(), same);
    assert_eq!(check(&sheet("DOORLOC")), Ok(()));
    let of_the_new = notice(&[0; SECTIONS], &sheet("DOORLOCK"), &mut []).unwrap_err().to_string();
    assert_eq!(of_the_new, format!("new sheet: {same}"));
}

#[test]
fn every_number_has_a_meaning() {
    let none = "not a refusal's number";
    for number in 0..=u8::MAX {
        let is_one = matches!(number, 1..=20 | 24);
        assert_eq!(Refusal { number, place: 0 }.meaning() != none, is_one, "{number}");
    }
}

#[test]
fn what_the_bench_says() {
    // one sum, in slot 2: the capture sum of state 0, which matches always
    let sheet = one_section(3, vec![record(2, "CAPTURE", &[0, 0, 0, 0, 0, 0, 0, 0, 0, 0, 1])]);
    let said = |samples, run| bench(&sheet, samples, run, &mut []).unwrap_err().to_string();
    let many = [0; MOST_SAMPLES + 1];
    assert_eq!(said(&many, Run::default()), "refused 20 at 4096: too many samples (the place is the most)");
    let run = Run { count: 1, ..Run::default() };
    assert_eq!(said(&[], run), "refused 24 at 0: state above 15, or count not below its number");
    assert_eq!(said(&[1, 2], Run::default()), "refused 12 at 2: output too short (the place is what is needed)");
}
