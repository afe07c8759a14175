//! Graphs on which a solver that goes from node to node takes long, by their size. Each has K
//! permissions, up to 64; nodes that nothing is said of are plain calls with all of them.

use crate::build::empty_graph;
use crate::graph::{Graph, MOST_EDGES, MOST_NODES};

/// Calls in a row, their edges listed backwards.
pub fn chain(k: usize, nodes: usize) -> Graph {
    let everything = all(k);
    let start = empty_graph(k).call_node("E", &everything);
    let calls = (1..nodes).fold(start, |graph, _| graph.call_node("", &everything));
    (1..nodes as u16).rev().fold(calls, |graph, node| graph.call(node - 1, node))
}

/// As many nodes and edges as there may be, in a text that is short enough: ten nodes call all
/// the others, and each other, but nobody calls the last of the ten.
pub fn crowd() -> Graph {
    let marks = ["E", "E", "P", "", "", "PE", "", "P", "E", ""];
    let callers = marks.iter().zip(0..).fold(empty_graph(3), |graph, (marks, node)| {
        graph.call_node(marks, [&[0, 1, 2][..], &[1], &[0, 1], &[2]][node % 4])
    });
    let nodes = (10..MOST_NODES).fold(callers, |graph, node| match node % 3 {
        0 => graph.check_node((node % 2) as u16, "", &[0, 1]),
        1 => graph.return_node("", &[0, 1]),
        _ => graph.call_node("", &[1]),
    });
    let called = (10..MOST_NODES as u16).fold(nodes, |graph, node| graph.call(node % 10, node));
    (called.m..MOST_EDGES)
        .fold(called, |graph, edge| graph.call((edge % 10) as u16, (edge / 10 % 9) as u16))
}

/// One edge, over and over.
pub fn doubled(k: usize, edges: usize) -> Graph {
    let two = empty_graph(k).call_node("E", &all(k)).call_node("", &all(k));
    (0..edges).fold(two, |graph, _| graph.call(0, 1))
}

/// A ring of K segments with `plain` nodes more. Segment s lets permission K - s through a check
/// of permission K - 1 - s: an entry that is granted K - s alone calls a node beside the ring, to
/// which the ring's first node of the segment brings what has come round, and the check behind it
/// leads back to the ring. So the new permission is on the ring once K - 1 - s has come round.
/// Permission p + 1 joins in the segment before the one where p joined: p has a whole lap to go
/// before it.
pub fn ring(k: usize, plain: usize) -> Graph {
    let firsts: Vec<u16> = (0..=k).map(|s| (4 * s + plain * s / k) as u16).collect();
    let nodes = (0..k).fold(empty_graph(k), |graph, segment| {
        let plain_here = usize::from(firsts[segment + 1] - firsts[segment]) - 4;
        ring_nodes(graph, segment, plain_here)
    });
    (0..k).fold(nodes, |graph, segment| {
        let past = if segment + 1 == k { 0 } else { firsts[segment + 1] };
        ring_edges(graph, segment, firsts[segment], firsts[segment + 1], past)
    })
}

fn ring_nodes(graph: Graph, segment: usize, plain: usize) -> Graph {
    let k = graph.k;
    let everything = all(k);
    // Permission 0 is on the ring from the start; there is no permission K to let through.
    let joined = if segment == 0 { 0 } else { k - segment };
    let segment = graph
        .call_node("", &everything)
        .call_node("", &everything)
        .check_node((k - 1 - segment) as u16, "", &everything)
        .call_node("E", &[joined]);
    (0..plain).fold(segment, |graph, _| graph.call_node("", &everything))
}

/// `past` is where the next segment begins, `end` the same but for the last one.
fn ring_edges(graph: Graph, segment: usize, first: u16, end: u16, past: u16) -> Graph {
    let plain: Vec<u16> = (first + 4..end).chain([past]).collect();
    let joined_at = if segment == 0 { first } else { first + 1 };
    let joined = graph
        .transfer(first, first + 1)
        .transfer(first + 1, first + 2)
        .transfer(first + 2, plain[0])
        .transfer(first, plain[0])
        .call(first + 3, joined_at);
    plain.windows(2).fold(joined, |graph, pair| graph.transfer(pair[0], pair[1]))
}

/// A ring that a stack of nodes brings to rest before the next permission enters it, or leaves
/// it. The first K nodes are entries with one permission each. The node after them is not reached
/// and calls the next K, each with all permissions but one. They all call the first node of the
/// ring, whose other nodes are checks of the last permission.
pub fn laps(k: usize, ring: usize) -> Graph {
    let everything = all(k);
    let entries = (0..k).fold(empty_graph(k), |graph, p| graph.call_node("E", &[p]));
    let unreached = entries.call_node("", &everything);
    let all_but_one = (0..k).fold(unreached, |graph, p| {
        let others: Vec<usize> = everything.iter().copied().filter(|&other| other != p).collect();
        graph.call_node("", &others)
    });
    let last = (k - 1) as u16;
    let nodes = (1..ring).fold(all_but_one.call_node("", &everything), |graph, _| {
        graph.check_node(last, "", &everything)
    });
    laps_edges(nodes, ring as u16)
}

fn laps_edges(nodes: Graph, ring: u16) -> Graph {
    let k = nodes.k as u16;
    let first = 2 * k + 1;
    let entering = (0..k).fold(nodes, |graph, node| graph.call(node, first));
    let calling = (k + 1..first).fold(entering, |graph, node| graph.call(k, node));
    let joining = (k + 1..first).fold(calling, |graph, node| graph.call(node, first));
    (0..ring).fold(joining, |graph, at| graph.transfer(first + at, first + (at + 1) % ring))
}

fn all(k: usize) -> Vec<usize> {
    (0..k).collect()
}
