//! The e-commerce example. Its drawing is not in the paper's text: the nine call edges below that
//! the text names are its own, the first call and the transfers inside each method are assumed.

use crate::build::{empty_graph, set};
use crate::graph::Graph;
use crate::solve::{solve, verdict, ALWAYS_PASSES, NEEDED};

const DEBIT: usize = 0;
const CANPAY: usize = 1;
const READ: usize = 2;
const WRITE: usize = 3;

const SYSTEM: [usize; 4] = [DEBIT, CANPAY, READ, WRITE];
const PROVIDER: [usize; 4] = SYSTEM;
const CLIENT: [usize; 2] = [DEBIT, CANPAY];
const UNKNOWN: [usize; 0] = [];

/// The paper's node numbers start from 1.
fn shop() -> Graph {
    let nodes = empty_graph(4)
        .call_node("E", &SYSTEM)
        .call_node("", &SYSTEM)
        .call_node("", &CLIENT)
        .call_node("", &CLIENT)
        .return_node("", &CLIENT)
        .call_node("", &UNKNOWN)
        .call_node("", &UNKNOWN)
        .check_node(CANPAY as u16, "", &PROVIDER)
        .call_node("P", &PROVIDER)
        .return_node("", &PROVIDER)
        .check_node(DEBIT as u16, "", &PROVIDER)
        .call_node("", &PROVIDER)
        .call_node("P", &PROVIDER)
        .call_node("P", &PROVIDER)
        .return_node("", &PROVIDER)
        .check_node(READ as u16, "", &SYSTEM)
        .return_node("", &SYSTEM)
        .check_node(WRITE as u16, "", &SYSTEM)
        .return_node("", &SYSTEM);
    let named = [(2, 6), (7, 6), (4, 11), (6, 11), (9, 16), (13, 16), (14, 18), (3, 8), (12, 8)];
    let assumed_calls = [(1, 3)];
    let assumed_transfers = [
        (1, 2),
        (3, 4),
        (4, 3),
        (3, 5),
        (6, 7),
        (8, 9),
        (9, 10),
        (11, 12),
        (12, 13),
        (13, 14),
        (14, 15),
        (16, 17),
        (18, 19),
    ];
    let calls = named.into_iter().chain(assumed_calls);
    let with_calls = calls.fold(nodes, |graph, (from, to)| graph.call(from - 1, to - 1));
    assumed_transfers
        .into_iter()
        .fold(with_calls, |graph, (from, to)| graph.transfer(from - 1, to - 1))
}

#[test]
fn the_sets_of_figure_7() {
    let all: &[usize] = &[DEBIT, CANPAY, READ, WRITE];
    let system: &[usize] = &[READ, WRITE];
    let money: &[usize] = &[DEBIT, CANPAY];
    let none: &[usize] = &[];
    let figure: [(std::ops::RangeInclusive<usize>, &[usize], &[usize]); 11] = [
        (1..=2, none, all),
        (3..=5, system, money),
        (6..=7, all, none),
        (8..=8, system, money),
        (9..=9, none, all),
        (10..=10, system, money),
        (11..=11, system, none),
        (12..=12, system, money),
        (13..=14, none, all),
        (15..=15, system, money),
        (16..=19, none, all),
    ];
    let solution = solve(&shop()).unwrap();
    for (nodes, denied, granted) in figure {
        for node in nodes {
            assert_eq!(solution.denied[node - 1], set(denied), "denied n{node}");
            assert_eq!(solution.granted[node - 1], set(granted), "granted n{node}");
        }
    }
}

#[test]
fn only_the_debit_check_is_needed() {
    let graph = shop();
    let solution = solve(&graph).unwrap();
    let at = |node: usize| verdict(&graph, &solution.denied, &solution.granted, node - 1).unwrap();
    assert_eq!(
        [at(8), at(11), at(16), at(18)],
        [ALWAYS_PASSES, NEEDED, ALWAYS_PASSES, ALWAYS_PASSES]
    );
}
