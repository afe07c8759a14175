//! The shapes are graphs, and take as many rounds as they are there for.

use crate::graph::{Graph, MOST_EDGES, MOST_NODES};
use crate::requests::rows_of;
use crate::sets;
use crate::shapes::{chain, crowd, doubled, laps, ring};
use crate::solve::{incoming_edges, may_round, solve};
use crate::text::LONGEST_TEXT;

fn may_rounds(graph: &Graph) -> usize {
    let incoming = incoming_edges(graph);
    let mut out = vec![sets::EMPTY; graph.m];
    let mut rounds = 0;
    loop {
        let next = may_round(graph, &incoming, &out);
        if next == out {
            return rounds;
        }
        (out, rounds) = (next, rounds + 1);
    }
}

#[test]
fn all_are_graphs() {
    for k in [1, 2, 63, 64] {
        let some = [chain(k, 1), chain(k, 9), doubled(k, 1), ring(k, 0), ring(k, 70), laps(k, 1)];
        for graph in some.into_iter().chain([laps(k, 9)]) {
            assert!(solve(&graph).is_ok(), "{graph:?}");
        }
    }
}

#[test]
fn a_chain_takes_a_round_for_each_call() {
    assert_eq!(may_rounds(&chain(64, 300)), 299);
}

#[test]
fn a_ring_takes_a_lap_for_each_permission() {
    let graph = ring(64, 36);
    // A segment is two nodes of the ring at least, and 36 nodes are on the ring alone.
    assert!(may_rounds(&graph) > 62 * (64 + 36), "{}", may_rounds(&graph));
    let solution = solve(&graph).unwrap();
    assert_eq!(solution.denied[0], sets::EMPTY);
}

#[test]
fn laps_end_with_every_permission_on_the_ring() {
    let graph = laps(64, 30);
    let solution = solve(&graph).unwrap();
    assert_eq!(solution.denied[graph.n - 1], sets::EMPTY);
    assert_eq!(solution.granted[129], sets::EMPTY);
}

#[test]
fn a_crowd_is_at_the_limits() {
    let graph = crowd();
    assert_eq!((graph.n, graph.m), (MOST_NODES, MOST_EDGES));
    assert!(solve(&graph).is_ok());
    assert!(rows_of(&graph).len() <= LONGEST_TEXT, "{}", rows_of(&graph).len());
}
