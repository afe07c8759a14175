//! The made-up requests: what they must have among them, and that they follow from their seed.

use crate::fresh::{request, walk};
use crate::requests::{split, Request, LONGEST_BODY};
use crate::tally::Tally;

const SOME: u64 = 3_000;

#[test]
fn every_refusal_verdict_and_call_occurs() {
    let mut tally = Tally::default();
    for index in 0..SOME {
        let answer = request(1, index).answer(&mut tally).unwrap();
        assert!(!answer.is_empty());
    }
    assert!(tally.refusals[1..].iter().all(|&count| count > 0), "{tally}");
    assert!(tally.verdicts.iter().all(|&count| count > 0), "{tally}");
    assert!(tally.calls.iter().all(|&count| count > 0), "{tally}");
    assert!(tally.passes > 0 && tally.fails > 0, "{tally}");
    assert!(tally.accepted_texts > 0 && tally.accepted_texts < tally.texts, "{tally}");
}

#[test]
fn letters_come_in_their_shares() {
    let letters: Vec<u8> = (0..SOME).map(|index| request(2, index).letter).collect();
    let hundredths = |letter: u8| {
        let count = letters.iter().filter(|&&other| other == letter).count();
        count * 100 / letters.len()
    };
    assert!((65..75).contains(&hundredths(b'C')));
    assert!((20..30).contains(&hundredths(b'T')));
    assert!((3..8).contains(&hundredths(b'L')));
}

#[test]
fn a_request_follows_from_seed_and_index() {
    assert_eq!(request(7, 11), request(7, 11));
    assert_ne!(request(7, 11), request(7, 12));
    assert_ne!(request(7, 11), request(8, 11));
    assert_ne!(request(7, 11), request(8, 10));
}

#[test]
fn requests_keep_to_their_form() {
    let requests: Vec<Request> = (0..SOME).map(|index| request(3, index)).collect();
    assert!(requests.iter().all(|request| request.body.len() <= LONGEST_BODY));
    let bytes: Vec<u8> = requests.iter().flat_map(Request::to_bytes).collect();
    assert_eq!(split(&bytes).unwrap(), requests);
}

/// The counts are there so that the comparison can't be about nothing.
#[test]
fn quick_inspection_is_as_good_as_full_on_walks() {
    let mut tally = Tally::default();
    for index in 0..2_500 {
        walk(4, index).answer(&mut tally).unwrap();
    }
    println!("{tally}");
    assert!(tally.inspections_agree(), "{tally}");
    assert!(tally.reached.stacks >= 100_000 && tally.reached.pairs >= 400_000, "{tally}");
    assert!(tally.reached.frames_by_quick < tally.reached.frames_by_full, "{tally}");
    assert!(tally.unreached.different > 1_000, "{tally}");
}

#[test]
fn walks_are_among_the_requests() {
    let mut tally = Tally::default();
    for index in 0..SOME {
        request(1, index).answer(&mut tally).unwrap();
    }
    assert!(tally.inspections_agree(), "{tally}");
    assert!(tally.reached.stacks > 5_000 && tally.unreached.different > 100, "{tally}");
}
