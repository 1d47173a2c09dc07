//! The run and the reader of answers, over what the unchanged Rust answered: the
//! listing that is printed from the reader alone is the Rust's, byte for byte.

mod common;

use std::io::Write;

use common::{cases, Case};
use layout_reader::{answer, run, Answer, Bound, Component, Kind, ANY_AREA};

/// What a case comes to, printed; its answer is read with and without the check.
fn told(case: &Case) -> String {
    let mut area = vec![0xa5; case.area];
    let length = match run(case.image, case.mode, &mut area) {
        Err(refusal) => return format!("{refusal}\n"),
        Ok(length) => length,
    };
    let checked = Answer::read(&area[..length], case.image).expect("an answer of the run's");
    let mut other = vec![0x5a; case.area];
    let left = answer(case.image, case.mode, &mut other).expect("accepted before");
    assert_eq!(checked, left);
    for component in checked.components() {
        widths_right(component);
    }
    checked.to_string()
}

/// A listing leaves out a literal's width: a literal of fixed bounds runs from 0
/// to it.
fn widths_right(component: Component) {
    let (start, end) = (component.start(), component.end());
    if let (Kind::Literal { width, .. }, b"", Some(Bound { text: b"", x })) =
        (component.kind(), start.text, end)
    {
        assert_eq!((start.x, x), (0, i128::from(width)));
    }
}

#[test]
fn all_answers_read_back_as_the_rust_printed_them() {
    let cases = cases();
    let accepted = cases.iter().filter(|case| case.accepted()).count();
    let different: Vec<&Case> = cases.iter().filter(|case| told(case) != case.listing).collect();
    let equal = cases.len() - different.len();
    // written past the test's capture, for tests/link to show
    let mut out = std::io::stdout();
    writeln!(out, "Rust: {accepted} answers read: {equal} equal, {} different", different.len())
        .expect("written");
    if let Some(case) = different.first() {
        panic!("first difference: wanted\n{}got\n{}", case.listing, told(case));
    }
    assert!(accepted >= 1_766 && cases.len() >= 3_426, "{accepted} of {}", cases.len());
}

/// The widths of an answer's literals, which a listing leaves out.
fn literal_widths(answer: &Answer) -> Vec<Option<u32>> {
    let width = |kind| if let Kind::Literal { width, .. } = kind { Some(width) } else { None };
    answer.components().map(|component| width(component.kind())).collect()
}

/// The two lines of each pair have equal answers, with texts as bytes; lines
/// whose listings differ have not.
#[test]
fn equal_answers() {
    let all = cases();
    let accepted: Vec<&Case> = all.iter().filter(|case| case.accepted()).collect();
    let mut areas = [vec![0; ANY_AREA], vec![0; ANY_AREA]];
    let (mut same, mut other) = (0, 0);
    for pair in accepted.windows(2) {
        let [one, two] = &mut areas;
        let one = answer(pair[0].image, pair[0].mode, one).expect("accepted");
        let two = answer(pair[1].image, pair[1].mode, two).expect("accepted");
        let widths = literal_widths(&one) == literal_widths(&two);
        let alike = pair[0].listing == pair[1].listing && widths;
        assert_eq!(one == two, alike);
        *(if alike { &mut same } else { &mut other }) += 1;
    }
    assert!(same >= 400 && other >= 400, "{same} same, {other} other");
}

/// Each answer of the run with a bit flipped, at a place that moves on: either no
/// answer any more, or another one. Neither panics.
#[test]
fn flipped_answers() {
    let (mut area, mut wrong) = (vec![0; ANY_AREA], vec![0; ANY_AREA]);
    let (mut faults, mut others) = (0, 0);
    for (i, case) in cases().iter().filter(|case| case.accepted()).enumerate() {
        let length = run(case.image, case.mode, &mut area).expect("accepted");
        let right = Answer::read(&area[..length], case.image).expect("an answer");
        for flip in 0..16 {
            let at = (i * 7_919 + flip * 1_543) % length;
            wrong[..length].copy_from_slice(&area[..length]);
            wrong[at] ^= 1 << ((i + flip) % 8);
            match Answer::read(&wrong[..length], case.image) {
                Err(_) => faults += 1,
                Ok(other) => {
                    assert!(
                        other != right && other.to_string().starts_with("layout "),
                        "byte {at}"
                    );
                    others += 1;
                }
            }
        }
    }
    assert!(faults > 10_000 && others > 1_000, "{faults} faults, {others} other answers");
}
