//! The printed rows: buffers that just fit and just don't, the slices' lengths, sets and numbers.

use super::build::{called, print_refusal, print_result, sets, sized, solve};
use super::Case;
use crate::build::gateway;
use crate::graph::Graph;
use crate::requests::{printed_refusal, Call, Session};
use crate::tally::Tally;

/// The largest buffer that the protocol has.
const LARGEST: u64 = 400_000;

pub fn cases() -> Vec<Case> {
    [
        gateway_buffers(),
        no_nodes(),
        lengths(),
        nodes(),
        most_nodes(),
        longest(),
        refusals(),
        places(),
        refusal_buffers(),
    ]
    .concat()
}

/// As many bytes as the result's rows have after these calls.
fn fitting(graph: &Graph, calls: &[Call]) -> u64 {
    let mut session = Session::on(graph.clone());
    calls.iter().for_each(|call| drop(session.answer(call, &mut Tally::default())));
    session.result_rows().map_or(0, |rows| rows.len() as u64)
}

fn printed(name: &str, graph: &Graph, before: &[Call], length: u64) -> Case {
    let calls = [before, &[print_result(length)]].concat();
    called(format!("print result: {name}"), graph, &calls)
}

fn gateway_buffers() -> Vec<Case> {
    let graph = gateway();
    let before = [solve(&graph)];
    let fits = fitting(&graph, &before);
    vec![
        printed("gateway, buffer exactly long enough", &graph, &before, fits),
        printed("gateway, one byte less", &graph, &before, fits - 1),
        printed("gateway, one byte more", &graph, &before, fits + 1),
        printed("gateway, no bytes", &graph, &before, 0),
        printed("gateway, the largest buffer", &graph, &before, LARGEST),
        printed("gateway, room for the header alone", &graph, &before, 29),
    ]
}

/// No nodes are refused, though the header alone would fit.
fn no_nodes() -> Vec<Case> {
    let none = Graph::default();
    vec![
        printed("no nodes, 29 bytes", &none, &[], 29),
        printed("no nodes, no bytes", &none, &[], 0),
        printed("no nodes, the largest buffer", &none, &[], LARGEST),
    ]
}

/// Kinds, checks, denied and granted sets of one node each, or of other lengths.
fn lengths() -> Vec<Case> {
    let one = |name: &str, [kinds, checks, denied, granted]: [usize; 4], length: u64| {
        let graph =
            Graph { n: 2, kinds: vec![2; kinds], checks: vec![0; checks], ..Graph::default() };
        printed(name, &graph, &[sets(&vec![0; denied], &vec![0; granted])], length)
    };
    let off = |slice: usize, length: usize| {
        let mut lengths = [2; 4];
        lengths[slice] = length;
        let name = ["kinds", "checks", "denied", "granted"][slice];
        one(&format!("two nodes, {name} of length {length}"), lengths, LARGEST)
    };
    let mut cases = vec![one("two nodes, all of length 2", [2; 4], LARGEST)];
    cases.extend((0..4).flat_map(|slice| [0, 1, 3].map(|length| off(slice, length))));
    cases.push(one("two nodes, 1 before 10: a short slice, no bytes", [2, 2, 1, 2], 0));
    cases.push(one("two nodes, 10 alone: no bytes", [2; 4], 0));
    cases
}

/// One node of these two sets.
fn node(name: &str, kind: u8, check: u16, denied: u64, granted: u64) -> Case {
    let graph = Graph { n: 1, kinds: vec![kind], checks: vec![check], ..Graph::default() };
    let before = [sets(&[denied], &[granted])];
    printed(name, &graph, &before, fitting(&graph, &before))
}

fn nodes() -> Vec<Case> {
    const ALL: u64 = u64::MAX;
    const LAST: u64 = 1 << 63;
    vec![
        node("check, verdict 0", 2, 1, 1, 4),
        node("check, verdict 1", 2, 1, 1, 2),
        node("check, verdict 2", 2, 1, 2, 4),
        node("check, verdict 3", 2, 1, 2, 3),
        node("call, no verdict", 0, 1, 2, 3),
        node("return, no verdict", 1, 1, 2, 3),
        node("kind 3, no verdict", 3, 1, 2, 3),
        node("kind 255, no verdict", 255, 1, 2, 3),
        node("every permission in both sets", 2, 0, ALL, ALL),
        node("permission 63 alone, check of 63", 2, 63, LAST, 0),
        node("check of 64 is in no set", 2, 64, ALL, ALL),
        node("check of 65535 is in no set", 2, 65_535, ALL, ALL),
        node("permissions 9 and 10", 0, 0, 1 << 9 | 1 << 10, 1 << 9),
        node("empty sets", 0, 0, 0, 0),
    ]
}

/// N at its limit, with node numbers of one to four digits.
fn most_nodes() -> Vec<Case> {
    let many = |name: &str, n: usize, length: fn(u64) -> u64| {
        let graph = sized(1, n, 0, 0);
        let before = [sets(&vec![0; n], &vec![1; n])];
        printed(name, &graph, &before, length(fitting(&graph, &before)))
    };
    vec![
        many("N 1024, exactly long enough", 1_024, |fits| fits),
        many("N 1024, one byte less", 1_024, |fits| fits - 1),
        many("N 1025", 1_025, |_| LARGEST),
        printed("the largest N", &sized(1, usize::MAX, 0, 0), &[], LARGEST),
    ]
}

/// The longest result that there is.
fn longest() -> Vec<Case> {
    let graph =
        Graph { n: 1_024, kinds: vec![2; 1_024], checks: vec![0; 1_024], ..Graph::default() };
    let before = [sets(&[u64::MAX; 1_024], &[u64::MAX; 1_024])];
    let fits = fitting(&graph, &before);
    vec![
        printed("the longest result, exactly long enough", &graph, &before, fits),
        printed("the longest result, one byte less", &graph, &before, fits - 1),
    ]
}

fn refused(name: &str, number: u64, place: u64, length: u64) -> Case {
    let call = print_refusal(number, place, length);
    called(format!("print refusal: {name}"), &Graph::default(), &[call])
}

/// Each number, with a place that counts only for some.
fn refusals() -> Vec<Case> {
    (1..=12).map(|number| refused(&format!("{number} at 5"), number, 5, LARGEST)).collect()
}

/// A row's place with each count of digits, in a buffer that just fits.
fn places() -> Vec<Case> {
    let most = [0, 9, 10, 99, 100, 999, 1_000, 5_121, 5_122, 9_999, 10_000, 65_536, u64::MAX];
    let exact = |place: u64| {
        let length = printed_refusal(11, place).len() as u64;
        refused(&format!("11 at {place}, exactly long enough"), 11, place, length)
    };
    most.into_iter().map(exact).collect()
}

fn refusal_buffers() -> Vec<Case> {
    let fits = |number, place| printed_refusal(number, place).len() as u64;
    let less = |number: u64, place: u64| {
        refused(
            &format!("{number} at {place}, one byte less"),
            number,
            place,
            fits(number, place) - 1,
        )
    };
    vec![
        refused("2 at 7, exactly long enough", 2, 7, fits(2, 7)),
        less(2, 7),
        refused("3 at 4095, exactly long enough", 3, 4_095, fits(3, 4_095)),
        less(3, 4_095),
        refused("12, exactly long enough", 12, 0, fits(12, 0)),
        less(12, 0),
        refused("1, exactly long enough for a place that is not printed", 1, 5_000, fits(1, 0)),
        less(1, 5_000),
        less(11, 10),
        less(11, u64::MAX),
        refused("4, no bytes", 4, 0, 0),
        refused("11 at the largest place, no bytes", 11, u64::MAX, 0),
        refused("10, no bytes", 10, 0, 0),
        refused("12, one byte more", 12, 0, fits(12, 0) + 1),
    ]
}
