//! The other worked cases, all with K = 2.

use crate::build::{empty_graph, set};
use crate::graph::Graph;
use crate::solve::{solve, verdict, ALWAYS_FAILS, NEVER_REACHED};

fn denied_and_granted(graph: &Graph, node: usize) -> (u64, u64) {
    let solution = solve(graph).unwrap();
    (solution.denied[node], solution.granted[node])
}

fn verdict_at(graph: &Graph, node: usize) -> u8 {
    let solution = solve(graph).unwrap();
    verdict(graph, &solution.denied, &solution.granted, node).unwrap()
}

#[test]
fn privileged_check() {
    let graph = empty_graph(2)
        .call_node("E", &[1])
        .check_node(0, "P", &[0, 1])
        .return_node("", &[0, 1])
        .call(0, 1)
        .transfer(1, 2);
    assert_eq!(denied_and_granted(&graph, 2), (set(&[0]), set(&[1])));
}

#[test]
fn privileged_check_without_the_permission_lets_nothing_through() {
    let graph = empty_graph(2).check_node(0, "PE", &[1]).return_node("", &[1]).transfer(0, 1);
    assert_eq!(verdict_at(&graph, 0), ALWAYS_FAILS);
    assert_eq!(denied_and_granted(&graph, 1), (set(&[0, 1]), set(&[])));
}

#[test]
fn transfer_loop() {
    let graph = empty_graph(2).call_node("E", &[0]).transfer(0, 0);
    assert_eq!(denied_and_granted(&graph, 0), (set(&[1]), set(&[0])));
}

#[test]
fn dead_end() {
    let graph = empty_graph(2).check_node(1, "E", &[0]).return_node("", &[0]).transfer(0, 1);
    assert_eq!(verdict_at(&graph, 0), ALWAYS_FAILS);
    assert_eq!(denied_and_granted(&graph, 1), (set(&[0, 1]), set(&[])));
}

#[test]
fn orphan() {
    let graph = empty_graph(2).call_node("E", &[0]).check_node(1, "", &[0]);
    assert_eq!(verdict_at(&graph, 1), NEVER_REACHED);
}

#[test]
fn a_loop_that_nothing_enters_keeps_every_sure_permission() {
    let graph = empty_graph(2).call_node("E", &[0]).call_node("", &[0]).transfer(1, 1);
    assert_eq!(denied_and_granted(&graph, 1), (set(&[0, 1]), set(&[0, 1])));
    assert_eq!(solve(&graph).unwrap().may_out, [set(&[])]);
    assert_eq!(solve(&graph).unwrap().sure_out, [set(&[0, 1])]);
}

#[test]
fn repeated_edges_change_nothing() {
    let once = empty_graph(2).call_node("E", &[0]).return_node("", &[0, 1]).call(0, 1);
    let twice = once.clone().call(0, 1);
    assert_eq!(denied_and_granted(&once, 1), denied_and_granted(&twice, 1));
}

#[test]
fn a_passed_check_adds_its_permission_to_what_is_sure() {
    let graph = empty_graph(2)
        .call_node("E", &[0, 1])
        .call_node("E", &[])
        .call_node("", &[0, 1])
        .check_node(0, "", &[0, 1])
        .return_node("", &[0, 1])
        .call(0, 2)
        .call(1, 2)
        .call(2, 3)
        .transfer(3, 4);
    assert_eq!(denied_and_granted(&graph, 3), (set(&[]), set(&[])));
    assert_eq!(denied_and_granted(&graph, 4), (set(&[]), set(&[0])));
}
