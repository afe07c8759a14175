//! The two systems of equations, solved by plain rounds, and the verdict.

use crate::graph::{Graph, Refusal, CALL_EDGE};
use crate::sets;

pub const NEEDED: u8 = 0;
pub const ALWAYS_PASSES: u8 = 1;
pub const ALWAYS_FAILS: u8 = 2;
pub const NEVER_REACHED: u8 = 3;

#[derive(Clone, Debug, PartialEq, Eq)]
pub struct Solution {
    pub denied: Vec<u64>,
    pub granted: Vec<u64>,
    pub may_out: Vec<u64>,
    pub sure_out: Vec<u64>,
}

pub fn solve(graph: &Graph) -> Result<Solution, Refusal> {
    graph.check()?;
    let incoming = incoming_edges(graph);
    let may_out = least_may(graph, &incoming);
    let sure_out = greatest_sure(graph, &incoming, &may_out);
    let all = sets::all(graph.k);
    let denied = (0..graph.n)
        .map(|node| all & !call_set(graph, node, may_in(graph, &incoming, node, &may_out)))
        .collect();
    let granted = (0..graph.n)
        .map(|node| call_set(graph, node, sure_in(graph, &incoming, node, &sure_out)))
        .collect();
    Ok(Solution { denied, granted, may_out, sure_out })
}

/// The solver over lent slices; a refusal stores nothing.
pub fn solve_into(
    graph: &Graph,
    denied: &mut [u64],
    granted: &mut [u64],
    may_out: &mut [u64],
    sure_out: &mut [u64],
) -> Result<(), Refusal> {
    let lengths_fit = denied.len() == graph.n
        && granted.len() == graph.n
        && may_out.len() == graph.m
        && sure_out.len() == graph.m;
    if !lengths_fit {
        return Err(Refusal::without_place(1));
    }
    let solution = solve(graph)?;
    denied.copy_from_slice(&solution.denied);
    granted.copy_from_slice(&solution.granted);
    may_out.copy_from_slice(&solution.may_out);
    sure_out.copy_from_slice(&solution.sure_out);
    Ok(())
}

pub fn verdict(graph: &Graph, denied: &[u64], granted: &[u64], node: usize) -> Result<u8, Refusal> {
    if denied.len() != graph.n || granted.len() != graph.n {
        return Err(Refusal::without_place(1));
    }
    graph.check()?;
    if node >= graph.n {
        return Err(Refusal::without_place(5));
    }
    if !graph.is_check(node) {
        return Err(Refusal::without_place(7));
    }
    let permission = graph.checked_permission(node);
    let is_denied = sets::holds(denied[node], permission);
    let is_granted = sets::holds(granted[node], permission);
    Ok(verdict_of(is_denied, is_granted))
}

pub fn verdict_of(is_denied: bool, is_granted: bool) -> u8 {
    match (is_denied, is_granted) {
        (false, false) => NEEDED,
        (false, true) => ALWAYS_PASSES,
        (true, false) => ALWAYS_FAILS,
        (true, true) => NEVER_REACHED,
    }
}

pub(crate) fn least_may(graph: &Graph, incoming: &[Vec<usize>]) -> Vec<u64> {
    let mut out = vec![sets::EMPTY; graph.m];
    loop {
        let next = may_round(graph, incoming, &out);
        if next == out {
            return out;
        }
        out = next;
    }
}

pub(crate) fn greatest_sure(graph: &Graph, incoming: &[Vec<usize>], may_out: &[u64]) -> Vec<u64> {
    let mut out = vec![sets::all(graph.k); graph.m];
    loop {
        let next = sure_round(graph, incoming, may_out, &out);
        if next == out {
            return out;
        }
        out = next;
    }
}

/// Every edge's MAY out set by its equation, from the given out sets.
pub(crate) fn may_round(graph: &Graph, incoming: &[Vec<usize>], out: &[u64]) -> Vec<u64> {
    let calls: Vec<u64> = (0..graph.n)
        .map(|node| call_set(graph, node, may_in(graph, incoming, node, out)))
        .collect();
    let transfers: Vec<u64> =
        (0..graph.n).map(|node| may_trans(graph, incoming, node, out)).collect();
    edge_outs(graph, &calls, &transfers)
}

/// Every edge's SURE out set by its equation, from the given out sets.
pub(crate) fn sure_round(
    graph: &Graph,
    incoming: &[Vec<usize>],
    may_out: &[u64],
    out: &[u64],
) -> Vec<u64> {
    let calls: Vec<u64> = (0..graph.n)
        .map(|node| call_set(graph, node, sure_in(graph, incoming, node, out)))
        .collect();
    let transfers: Vec<u64> =
        (0..graph.n).map(|node| sure_trans(graph, incoming, node, may_out, out)).collect();
    edge_outs(graph, &calls, &transfers)
}

pub(crate) fn incoming_edges(graph: &Graph) -> Vec<Vec<usize>> {
    let mut incoming = vec![Vec::new(); graph.n];
    for edge in 0..graph.m {
        incoming[graph.to(edge)].push(edge);
    }
    incoming
}

/// The out sets arriving at a node. The entry mark is one more arriving edge.
fn arriving(graph: &Graph, incoming: &[Vec<usize>], node: usize, out: &[u64]) -> Vec<u64> {
    let mut sets: Vec<u64> = incoming[node].iter().map(|&edge| out[edge]).collect();
    if graph.is_entry(node) {
        sets.push(graph.grants[node]);
    }
    sets
}

fn join(sets: impl Iterator<Item = u64>) -> u64 {
    sets.fold(sets::EMPTY, |joined, set| joined | set)
}

fn common_part(k: usize, sets: impl Iterator<Item = u64>) -> u64 {
    sets.fold(sets::all(k), |common, set| common & set)
}

fn may_in(graph: &Graph, incoming: &[Vec<usize>], node: usize, out: &[u64]) -> u64 {
    join(arriving(graph, incoming, node, out).into_iter())
}

fn sure_in(graph: &Graph, incoming: &[Vec<usize>], node: usize, out: &[u64]) -> u64 {
    common_part(graph.k, arriving(graph, incoming, node, out).into_iter())
}

fn call_set(graph: &Graph, node: usize, in_set: u64) -> u64 {
    if graph.is_privileged(node) {
        graph.grants[node]
    } else {
        in_set
    }
}

/// The same in both systems, given the system's in set.
fn privileged_check_trans(graph: &Graph, node: usize, in_set: u64) -> u64 {
    if sets::holds(graph.grants[node], graph.checked_permission(node)) {
        in_set
    } else {
        sets::EMPTY
    }
}

fn may_trans(graph: &Graph, incoming: &[Vec<usize>], node: usize, out: &[u64]) -> u64 {
    let in_set = may_in(graph, incoming, node, out);
    if !graph.is_check(node) {
        return in_set;
    }
    if graph.is_privileged(node) {
        return privileged_check_trans(graph, node, in_set);
    }
    let permission = graph.checked_permission(node);
    join(
        arriving(graph, incoming, node, out)
            .into_iter()
            .filter(|&set| sets::holds(set, permission)),
    )
}

fn sure_trans(
    graph: &Graph,
    incoming: &[Vec<usize>],
    node: usize,
    may_out: &[u64],
    out: &[u64],
) -> u64 {
    let in_set = sure_in(graph, incoming, node, out);
    if !graph.is_check(node) {
        return in_set;
    }
    if graph.is_privileged(node) {
        return privileged_check_trans(graph, node, in_set);
    }
    let permission = graph.checked_permission(node);
    let may = arriving(graph, incoming, node, may_out);
    let sure = arriving(graph, incoming, node, out);
    let passing: Vec<u64> = may
        .into_iter()
        .zip(sure)
        .filter(|&(may_set, _)| sets::holds(may_set, permission))
        .map(|(_, sure_set)| sure_set)
        .collect();
    if passing.is_empty() {
        return sets::EMPTY;
    }
    sets::add(common_part(graph.k, passing.into_iter()), permission)
}

fn edge_outs(graph: &Graph, calls: &[u64], transfers: &[u64]) -> Vec<u64> {
    (0..graph.m)
        .map(|edge| {
            let (from, to) = (graph.from(edge), graph.to(edge));
            if graph.ways[edge] == CALL_EDGE {
                calls[from] & graph.grants[to]
            } else {
                transfers[from]
            }
        })
        .collect()
}
