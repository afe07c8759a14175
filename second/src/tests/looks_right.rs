//! One graph for each of the errors that look right, on which the error shows.

use crate::build::{empty_graph, gateway, set};
use crate::solve::{solve, verdict, NEEDED};

#[test]
fn a_privileged_call_frame_moves_on_without_its_privilege() {
    let graph = empty_graph(2)
        .call_node("E", &[1])
        .call_node("P", &[0, 1])
        .return_node("", &[0, 1])
        .call(0, 1)
        .transfer(1, 2);
    let solution = solve(&graph).unwrap();
    assert_eq!((solution.denied[1], solution.granted[1]), (set(&[]), set(&[0, 1])));
    assert_eq!((solution.denied[2], solution.granted[2]), (set(&[0]), set(&[1])));
}

#[test]
fn where_nothing_arrives_sure_stays_all_k() {
    let graph = empty_graph(3).call_node("E", &[0]).call_node("", &[0]);
    let solution = solve(&graph).unwrap();
    assert_eq!(solution.granted[1], set(&[0, 1, 2]));
    assert_eq!(solution.denied[1], set(&[0, 1, 2]));
}

#[test]
fn callers_that_cannot_pass_do_not_weaken_what_is_sure_after_the_check() {
    let solution = solve(&gateway()).unwrap();
    assert_eq!(solution.granted[3], set(&[0, 1]));

    let graph = empty_graph(2)
        .call_node("E", &[0, 1])
        .call_node("E", &[])
        .check_node(0, "", &[0, 1])
        .return_node("", &[0, 1])
        .call(0, 2)
        .call(1, 2)
        .transfer(2, 3);
    let solution = solve(&graph).unwrap();
    assert_eq!(solution.granted[2], set(&[]));
    assert_eq!(solution.granted[3], set(&[0, 1]));
}

#[test]
fn an_entry_with_callers_is_still_an_entry() {
    let graph = empty_graph(1).call_node("E", &[]).check_node(0, "E", &[0]).call(0, 1);
    let solution = solve(&graph).unwrap();
    assert_eq!((solution.denied[1], solution.granted[1]), (set(&[]), set(&[])));
    assert_eq!(verdict(&graph, &solution.denied, &solution.granted, 1), Ok(NEEDED));
}
