//! Requests written by hand and their whole answers.

use super::gateway::OUTPUT;
use crate::build::{gateway, with_crlf, GATEWAY_ROWS};
use crate::requests::{graph_numbers, split, Call, Malformed, Request};
use crate::tally::Tally;

/// The worked gateway as C's numbers: K, N, M and the eight slices.
const GATEWAY: &str = "2 8 8 \
    8 0 0 2 1 0 2 1 1 \
    8 0 0 0 0 0 0 0 0 \
    8 0 0 0 0 1 0 0 0 \
    8 1 1 0 0 0 0 0 0 \
    8 3 2 3 3 3 3 3 2 \
    8 0 1 2 1 4 5 4 1 \
    8 2 2 3 4 5 6 6 7 \
    8 0 0 1 0 0 1 1 1";

/// Call 1 on the gateway, and what it is answered.
const SOLVE: &str = "1 8 8 8 8";
const SOLVED: &str = "solved\n0 1 0 0 0 0 0 1\n3 2 2 3 3 3 2 2\n3 2 3 2 3 3 2 2\n3 2 3 2 3 3 2 2\n";

/// One call node, entry, that calls itself; K = 1, no grants.
const CALLS_ITSELF: &str = "1 1 1 1 0 1 0 1 0 1 1 1 0 1 0 1 0 1 0";

fn answer(letter: u8, body: &str) -> Result<String, Malformed> {
    Request { letter, body: body.into() }.answer(&mut Tally::default())
}

fn calls(graph: &str, calls: &str) -> String {
    answer(b'C', &format!("{graph} {calls}")).unwrap()
}

fn solved_gateway(after: &str) -> String {
    let answers = calls(GATEWAY, &format!("{SOLVE} {after}"));
    answers.strip_prefix(SOLVED).unwrap().to_string()
}

#[test]
fn gateway_is_checked_solved_and_judged() {
    assert_eq!(calls(GATEWAY, "0"), "accepted\n");
    assert_eq!(calls(GATEWAY, SOLVE), SOLVED);
    assert_eq!(solved_gateway("2 2 2 5"), "verdict 0\nverdict 1\n");
    assert_eq!(solved_gateway("2 0 2 8"), "refused,7,0\r\nrefused,5,0\r\n");
}

#[test]
fn gateway_stacks() {
    assert_eq!(solved_gateway("7 2 2 0 2 3 0 4 0"), "passes 2\npasses 2\n");
    assert_eq!(solved_gateway("7 2 2 1 2 3 0 4 0"), "fails 2\nfails 2\n");
    assert_eq!(solved_gateway("7 3 3 1 4 5 3 0 4 0"), "passes 2\npasses 1\n");
    assert_eq!(solved_gateway("7 2 2 1 5 3 0 4 0"), "fails 2\npasses 1\n");
    assert_eq!(solved_gateway("7 0 0 3 0 4 0"), "passes 0\npasses 0\n");
}

#[test]
fn gateway_rows_and_buffers() {
    let rows = with_crlf(OUTPUT);
    let length = rows.len();
    assert_eq!(solved_gateway(&format!("8 {length}")), rows);
    assert_eq!(solved_gateway("8 400000"), rows);
    assert_eq!(solved_gateway(&format!("8 {}", length - 1)), "refused,10,0\r\n");
    assert_eq!(solved_gateway("8 0"), "refused,10,0\r\n");
}

#[test]
fn gateway_steps() {
    let steps = "7 0 3 6 6 6 5 1 5 4 5 5 5 6 5 6 5 0";
    let expected = "height 1\n1 6 6\nheight 2\n1 4 6\nheight 3\n1 4 5\nheight 3\n1 4 6\n\
        height 2\n1 6 6\nrefused,8,0\r\n1 6 6\n";
    assert_eq!(calls(GATEWAY, steps), expected);
}

#[test]
fn a_step_is_refused_and_the_stack_stands() {
    assert_eq!(calls(GATEWAY, "7 2 2 1 2 5 3 3 1"), "refused,9,0\r\n1 2\npasses 2\n");
    assert_eq!(calls(GATEWAY, "7 1 1 1 5 4"), "refused,10,0\r\n1\n");
    assert_eq!(calls(GATEWAY, "5 0"), "refused,10,0\r\n\n");
    assert_eq!(calls(GATEWAY, "5 2"), "refused,8,0\r\n\n");
    assert_eq!(calls(GATEWAY, "7 1 1 3 5 3"), "refused,8,0\r\n3\n");
    assert_eq!(calls(GATEWAY, "7 2 1 0 5 8"), "refused,5,0\r\n0\n");
    assert_eq!(calls(GATEWAY, "7 2 1 0 5 2"), "refused,6,0\r\n0\n");
}

#[test]
fn the_other_cases_of_the_rules() {
    let privileged_check = "2 3 2 3 0 2 1 3 0 0 0 3 0 1 0 3 1 0 0 3 2 3 3 2 0 1 2 1 2 2 0 1";
    assert_eq!(calls(privileged_check, "1 3 3 2 2"), "solved\n1 0 1\n2 3 2\n2 2\n2 2\n");
    let transfer_loop = "2 1 1 1 0 1 0 1 0 1 1 1 1 1 0 1 0 1 1";
    assert_eq!(calls(transfer_loop, "1 1 1 1 1"), "solved\n2\n1\n1\n1\n");
    let dead_end = "2 2 1 2 2 1 2 1 0 2 0 0 2 1 0 2 1 1 1 0 1 1 1 1";
    assert_eq!(calls(dead_end, "1 2 2 1 1 2 0"), "solved\n2 3\n1 0\n0\n0\nverdict 2\n");
    let orphan = "2 2 0 2 0 2 2 0 1 2 0 0 2 1 0 2 1 1 0 0 0";
    assert_eq!(calls(orphan, "1 2 2 0 0 2 1"), "solved\n2 3\n1 3\n\n\nverdict 3\n");
}

fn nodes_of_k(k: u64, n: usize) -> String {
    let slice = |entry: &str| format!("{n}{}", format!(" {entry}").repeat(n));
    let slices: Vec<String> = ["0", "0", "0", "1", "0"].iter().map(|entry| slice(entry)).collect();
    format!("{k} {n} 0 {} 0 0 0", slices.join(" "))
}

#[test]
fn limits() {
    assert_eq!(calls(&nodes_of_k(64, 1_024), "0"), "accepted\n");
    assert_eq!(calls(&nodes_of_k(64, 1_025), "0"), "refused,1,0\r\n");
    assert_eq!(calls(&nodes_of_k(65, 1), "0"), "refused,1,0\r\n");
    assert_eq!(calls(&nodes_of_k(0, 1), "0"), "refused,1,0\r\n");
    assert_eq!(calls(&nodes_of_k(u64::MAX, 1), "0"), "refused,1,0\r\n");
    let stack =
        |length: usize, height: usize| format!("7 {height} {length}{} 5 0", " 0".repeat(length));
    let line = |length: usize| vec!["0"; length].join(" ") + "\n";
    let pushed = calls(CALLS_ITSELF, &stack(1_024, 1_023));
    assert_eq!(pushed, "height 1024\n".to_string() + &line(1_024));
    let full = calls(CALLS_ITSELF, &stack(1_024, 1_024));
    assert_eq!(full, "refused,10,0\r\n".to_string() + &line(1_024));
    let long = calls(CALLS_ITSELF, &stack(1_025, 0));
    assert_eq!(long, "refused,6,0\r\n".to_string() + &line(1_025));
}

#[test]
fn numbers_up_to_the_greatest() {
    let most = u64::MAX;
    let asked = format!("2 {most} 3 {most} 4 {most} 7 {most} 1 0 3 0 5 {most}");
    let expected = "refused,5,0\r\n".repeat(3) + "refused,6,0\r\n" + "refused,5,0\r\n0\n";
    assert_eq!(solved_gateway(&asked), expected);
    let counts = format!("{most} {most} {most} 0 0 0 0 0 0 0 0");
    assert_eq!(calls(&counts, "0 1 0 0 0 0 8 9"), "refused,1,0\r\n".repeat(3));
    assert_eq!(calls(GATEWAY, &format!("9 11 {most} 33")), format!("refused,11,{most}\r\n"));
}

#[test]
fn refusals_2_to_4_reach_every_call() {
    let node = "1 1 0 1 3 1 0 1 0 1 1 1 0 0 0 0";
    let edge = "1 1 1 1 1 1 0 1 0 1 1 1 0 1 0 1 0 1 1";
    let no_entry = "1 1 0 1 0 1 0 1 0 1 0 1 0 0 0 0";
    for (graph, edges, row) in
        [(node, 0, "refused,2,0"), (edge, 1, "refused,3,0"), (no_entry, 0, "refused,4,0")]
    {
        let asked = format!("0 1 1 1 {edges} {edges} 2 0 3 0 4 0 5 0");
        assert_eq!(calls(graph, &asked), format!("{row}\r\n").repeat(6) + "\n");
    }
}

#[test]
fn the_lowest_number_is_given() {
    // Sets that don't fit are 1 before a permission or a node that isn't there.
    assert_eq!(calls(GATEWAY, "4 2 2 8"), "refused,1,0\r\n".repeat(2));
    assert_eq!(calls(GATEWAY, "6 8 0 0 0 0 0 0 0 0 7 0 0 0 0 0 0 0 2 2"), "refused,1,0\r\n");
    // Full inspection takes no sets.
    assert_eq!(calls(GATEWAY, "3 2 3 1"), "refused,5,0\r\npasses 0\n");
    // A permission that isn't there is 5 before a stack that is none.
    assert_eq!(solved_gateway("7 3 2 0 0 3 2 3 1"), "refused,5,0\r\nrefused,6,0\r\n");
    assert_eq!(solved_gateway("7 1 2 8 0 4 0 7 1 2 0 8 4 0"), "refused,6,0\r\npasses 1\n");
}

#[test]
fn solve_asks_for_its_lengths() {
    for lengths in ["7 8 8 8", "8 9 8 8", "8 8 0 8", "8 8 8 9"] {
        assert_eq!(calls(GATEWAY, &format!("1 {lengths}")), "refused,1,0\r\n");
    }
}

#[test]
fn a_refused_solve_lends_its_nines() {
    let rows: String = (0..8)
        .map(|node| format!("{node},0 3,0 3,{}\r\n", if node == 2 || node == 5 { "3" } else { "" }))
        .collect();
    let answers = calls(GATEWAY, "1 8 8 8 7 2 2 8 400000");
    let expected = format!("refused,1,0\r\nverdict 3\nnode,denied,granted,verdict\r\n{rows}");
    assert_eq!(answers, expected);
}

#[test]
fn lent_sets_are_taken_as_they_are() {
    let sets = format!("6 8{} 8{}", " 18446744073709551612".repeat(8), " 1".repeat(8));
    let asked = format!("{sets} 2 2 7 1 1 0 4 0 4 1");
    assert_eq!(calls(GATEWAY, &asked), "verdict 1\npasses 1\npasses 1\n");
}

#[test]
fn printing_judges_no_graph() {
    // A check of 64 and one of 63, kind 7, K out of range, no slices of edges.
    let graph = "0 3 9 3 2 2 7 3 64 63 0 0 0 0 0 0 0";
    let all = u64::MAX;
    let asked = format!("6 3 {all} 9223372036854775808 0 3 0 0 1 8 400000");
    let every: Vec<String> = (0..64).map(|member| member.to_string()).collect();
    let rows = format!("0,{},,0\r\n1,63,,2\r\n2,,0,\r\n", every.join(" "));
    assert_eq!(calls(graph, &asked), "node,denied,granted,verdict\r\n".to_string() + &rows);
    assert_eq!(calls(graph, "8 400000"), "refused,1,0\r\n");
    let none = "0 0 0 0 0 0 0 0 0 0 0";
    assert_eq!(calls(none, "8 29 8 28"), "refused,1,0\r\nrefused,1,0\r\n");
}

#[test]
fn refusals_are_printed() {
    assert_eq!(calls(GATEWAY, "9 11 17 15"), "refused,11,17\r\n");
    assert_eq!(calls(GATEWAY, "9 11 17 14"), "refused,10,0\r\n");
    for number in 1..=12 {
        let place = if [2, 3, 11].contains(&number) { 5 } else { 0 };
        let row = format!("refused,{number},{place}\r\n");
        assert_eq!(calls(GATEWAY, &format!("9 {number} 5 100")), row);
    }
}

#[test]
fn texts_are_answered_by_their_rows() {
    let text = with_crlf(GATEWAY_ROWS);
    assert_eq!(answer(b'T', &text).unwrap(), text);
    assert_eq!(answer(b'T', &text.replace("E,0,2,C", "\"E\",0,\"2\",C")).unwrap(), text);
    assert_eq!(answer(b'T', &text.replace("0 1", "0 2")).unwrap(), "refused,2,0\r\n");
    assert_eq!(answer(b'T', &text.replace("E,1,7,T", "E,1,6,T")).unwrap(), "refused,3,7\r\n");
    assert_eq!(answer(b'T', &text.replace(",E,", ",,")).unwrap(), "refused,4,0\r\n");
    assert_eq!(answer(b'T', &text.replace("N,3", "N,4")).unwrap(), "refused,11,5\r\n");
    assert_eq!(answer(b'T', "").unwrap(), "refused,11,1\r\n");
    assert_eq!(answer(b'T', &"x".repeat(65_537)).unwrap(), "refused,12,0\r\n");
}

#[test]
fn slice_lengths_of_the_reader_come_first() {
    let text = with_crlf(GATEWAY_ROWS);
    let right = [1_024, 1_024, 1_024, 1_024, 1_024, 4_096, 4_096, 4_096];
    let put = |lengths: &[usize; 8], text: &str| {
        let words: String = lengths.iter().map(|length| format!("{length} ")).collect();
        answer(b'L', &(words + text)).unwrap()
    };
    assert_eq!(put(&right, &text), text);
    assert_eq!(put(&right, ""), "refused,11,1\r\n");
    for place in 0..8 {
        for wrong in [right[place] - 1, right[place] + 1, 0] {
            let mut lengths = right;
            lengths[place] = wrong;
            assert_eq!(put(&lengths, &text), "refused,1,0\r\n");
            assert_eq!(put(&lengths, &"x".repeat(65_537)), "refused,1,0\r\n");
        }
    }
}

#[test]
fn requests_follow_each_other() {
    let input = b"T00000\nC00003\n1 2T00002\nab";
    let bodies: Vec<(u8, Vec<u8>)> =
        split(input).unwrap().into_iter().map(|request| (request.letter, request.body)).collect();
    assert_eq!(bodies, [(b'T', vec![]), (b'C', b"1 2".to_vec()), (b'T', b"ab".to_vec())]);
    let written: Vec<u8> = split(input).unwrap().iter().flat_map(Request::to_bytes).collect();
    assert_eq!(written, input);
}

#[test]
fn what_the_protocol_does_not_know() {
    assert!(split(b"T00001\n").is_err());
    assert!(split(b"T0001\nx").is_err());
    assert!(split(b"T00000").is_err());
    assert!(answer(b'X', "").is_err());
    for body in ["", "1 2 3", "x", "1  2", "+1", "18446744073709551616"] {
        assert!(answer(b'C', body).is_err());
    }
    for call in ["10", "2", "1 8 8 8", "7 0 2 1", "1 1026 8 8 8", "7 0 1 65536", "0 "] {
        assert!(answer(b'C', &format!("{GATEWAY} {call}")).is_err());
    }
    assert!(answer(b'L', "1 2 3 G").is_err());
}

#[test]
fn a_call_is_read_as_it_is_written() {
    assert_eq!(crate::requests::spaced_numbers(&graph_numbers(&gateway())), GATEWAY);
    let stack = Call::LendStack { height: u64::MAX, slice: vec![3, 65_535] };
    assert_eq!(stack.numbers(), [7, u64::MAX, 2, 3, 65_535]);
    let sets = Call::LendSets { denied: vec![u64::MAX], granted: vec![] };
    assert_eq!(sets.numbers(), [6, 1, u64::MAX, 0]);
    assert_eq!(Call::Solve { lengths: [1, 2, 3, 4] }.numbers(), [1, 1, 2, 3, 4]);
    assert_eq!(Call::PrintRefusal { number: 2, place: 3, length: 4 }.numbers(), [9, 2, 3, 4]);
}

#[test]
fn answers_are_counted() {
    let mut tally = Tally::default();
    let body = format!("{GATEWAY} {SOLVE} 2 2 2 5 2 0 7 2 2 0 2 3 0 4 0 3 9 9 2 1 100");
    Request { letter: b'C', body: body.into() }.answer(&mut tally).unwrap();
    Request { letter: b'T', body: vec![] }.answer(&mut tally).unwrap();
    assert_eq!((tally.requests, tally.texts, tally.accepted_texts), (2, 1, 0));
    assert_eq!(tally.calls, [0, 1, 3, 2, 1, 0, 0, 1, 0, 1]);
    assert_eq!(tally.refusals, [0, 0, 0, 0, 0, 1, 0, 1, 0, 0, 0, 1, 0]);
    assert_eq!((tally.verdicts, tally.passes, tally.fails), ([1, 1, 0, 0], 2, 0));
}
