//! The requests that follow from no seed: what must be among them.

use std::collections::BTreeSet;

use crate::fixed::requests;
use crate::requests::LONGEST_BODY;
use crate::tally::Tally;

#[test]
fn they_keep_to_the_protocol_and_meet_what_a_row_can_break() {
    let mut tally = Tally::default();
    for request in requests() {
        assert!(request.body.len() <= LONGEST_BODY);
        assert!(!request.answer(&mut tally).unwrap().is_empty());
    }
    assert!(tally.texts > 4_000 && tally.accepted_texts > 40, "{tally}");
    assert!([2, 3, 11].iter().all(|&number: &usize| tally.refusals[number] > 0), "{tally}");
    assert_eq!(tally.calls[1], 4, "{tally}");
    assert_eq!(tally.refusals[1], 0, "{tally}");
}

/// A refusal names each row of the gateway.
#[test]
fn every_row_is_named() {
    let answers: BTreeSet<String> = requests()
        .iter()
        .filter(|request| request.letter == b'T')
        .map(|request| request.answer(&mut Tally::default()).unwrap())
        .collect();
    for row in 1..=18 {
        assert!(answers.contains(&format!("refused,11,{row}\r\n")), "{row}");
    }
}
