//! The named cases: what must be among them, and that they keep their names' word.

use std::collections::BTreeSet;

use crate::named::{by_subject, cases, Case};
use crate::requests::{split, Request, LONGEST_BODY};
use crate::tally::Tally;

fn answers(case: &Case, tally: &mut Tally) -> String {
    case.requests.iter().map(|request| request.answer(tally).unwrap()).collect()
}

#[test]
fn every_refusal_verdict_and_call_occurs() {
    let mut tally = Tally::default();
    cases().iter().for_each(|case| drop(answers(case, &mut tally)));
    assert!(tally.refusals[1..].iter().all(|&count| count > 0), "{tally}");
    assert!(tally.verdicts.iter().all(|&count| count > 0), "{tally}");
    assert!(tally.calls.iter().all(|&count| count > 0), "{tally}");
    assert!(tally.passes > 0 && tally.fails > 0, "{tally}");
    assert!(tally.accepted_texts > 0 && tally.accepted_texts < tally.texts, "{tally}");
}

#[test]
fn each_call_has_a_case_of_its_name() {
    let named = cases();
    let calls = ["check", "solve", "verdict", "inspect", "step", "print result", "print refusal"];
    for call in calls.into_iter().chain(["read"]) {
        assert!(named.iter().any(|case| case.name.starts_with(&format!("{call}: "))), "{call}");
    }
}

#[test]
fn names_are_distinct_lines() {
    let mut seen = BTreeSet::new();
    for case in cases() {
        assert!(case.name.bytes().all(|byte| (b' '..=b'~').contains(&byte)), "{}", case.name);
        assert!(!case.requests.is_empty(), "{}", case.name);
        assert!(seen.insert(case.name.clone()), "{}", case.name);
    }
}

#[test]
fn requests_keep_to_their_form() {
    let requests: Vec<Request> = cases().iter().flat_map(Case::with_name).collect();
    assert!(requests.iter().all(|request| request.body.len() <= LONGEST_BODY));
    let bytes: Vec<u8> = requests.iter().flat_map(Request::to_bytes).collect();
    assert_eq!(split(&bytes).unwrap(), requests);
}

/// The two numbers of a name like `step, 8 before 10: a full slice, no edge`.
fn before(name: &str) -> Option<(usize, usize)> {
    let (left, right) = name.split_once(" before ")?;
    let first = left.rsplit(' ').next()?.parse().ok()?;
    let second = right.split(':').next()?.parse().ok()?;
    Some((first, second))
}

#[test]
fn the_number_that_a_name_says_is_given() {
    let mut pairs = BTreeSet::new();
    let named = cases();
    let ordered = named.iter().filter_map(|case| before(&case.name).map(|pair| (case, pair)));
    for (case, pair) in ordered {
        let mut tally = Tally::default();
        answers(case, &mut tally);
        let given: Vec<usize> = (1..13).filter(|&number| tally.refusals[number] > 0).collect();
        assert_eq!(given, [pair.0], "{}", case.name);
        pairs.insert(pair);
    }
    let neighbours = [(1, 2), (2, 3), (3, 4), (4, 5), (5, 6), (6, 8), (8, 9), (8, 10), (5, 7)];
    let of_the_reader = [(1, 12), (12, 11), (11, 2)];
    for pair in neighbours.iter().chain(&of_the_reader) {
        assert!(pairs.contains(pair), "{pair:?}");
    }
}

#[test]
fn every_subject_has_cases() {
    for (subject, cases) in by_subject() {
        assert!(cases.len() > 20, "{subject}");
    }
}
