//! Small made-up graphs: the solutions are the least and the greatest, and the two inspections
//! agree on every stack that steps reach.

use std::collections::BTreeSet;

use crate::build::empty_graph;
use crate::graph::Graph;
use crate::machine::{full_inspection, quick_inspection, step};
use crate::sets::lies_within;
use crate::solve::{
    greatest_sure, incoming_edges, least_may, may_round, solve, sure_round, Solution,
};

struct Numbers(u64);

impl Numbers {
    fn below(&mut self, limit: usize) -> usize {
        self.0 =
            self.0.wrapping_mul(6_364_136_223_846_793_005).wrapping_add(1_442_695_040_888_963_407);
        (self.0 >> 33) as usize % limit
    }
}

/// Edges that would break their rule are left out.
fn some_graph(numbers: &mut Numbers, k: usize, nodes: usize, edges: usize) -> Graph {
    let mut graph = empty_graph(k);
    for node in 0..nodes {
        let grants: Vec<usize> = (0..k).filter(|_| numbers.below(3) > 0).collect();
        let is_entry = node == 0 || numbers.below(5) == 0;
        let is_privileged = numbers.below(4) == 0;
        let marks =
            [if is_privileged { "P" } else { "" }, if is_entry { "E" } else { "" }].concat();
        graph = match numbers.below(4) {
            0 | 1 => graph.call_node(&marks, &grants),
            2 => graph.check_node(numbers.below(k) as u16, &marks, &grants),
            _ => graph.return_node(&marks, &grants),
        };
    }
    for _ in 0..edges {
        let (from, to) = (numbers.below(nodes) as u16, numbers.below(nodes) as u16);
        let longer = graph.clone().edge(from, to, numbers.below(2) as u8);
        if longer.check().is_ok() {
            graph = longer;
        }
    }
    graph
}

/// Every way to give each edge a set of a single permission, or none.
fn every_assignment(m: usize) -> impl Iterator<Item = Vec<u64>> {
    (0..1u64 << m).map(move |bits| (0..m).map(|edge| bits >> edge & 1).collect())
}

fn within_everywhere(smaller: &[u64], larger: &[u64]) -> bool {
    smaller.iter().zip(larger).all(|(&s, &l)| lies_within(s, l))
}

#[test]
fn may_is_least_and_sure_is_greatest_among_all_solutions() {
    let mut numbers = Numbers(1);
    for _ in 0..300 {
        let graph = some_graph(&mut numbers, 1, 4, 9);
        let incoming = incoming_edges(&graph);
        let may = least_may(&graph, &incoming);
        let sure = greatest_sure(&graph, &incoming, &may);
        assert_eq!(may_round(&graph, &incoming, &may), may);
        assert_eq!(sure_round(&graph, &incoming, &may, &sure), sure);
        for out in every_assignment(graph.m) {
            if may_round(&graph, &incoming, &out) == out {
                assert!(within_everywhere(&may, &out));
            }
            if sure_round(&graph, &incoming, &may, &out) == out {
                assert!(within_everywhere(&out, &sure));
            }
        }
    }
}

fn reachable_up_to(graph: &Graph, highest: usize, most: usize) -> BTreeSet<Vec<u16>> {
    let mut reached = BTreeSet::from([Vec::new()]);
    let mut waiting: Vec<Vec<u16>> = vec![Vec::new()];
    while let Some(stack) = waiting.pop() {
        for next in 0..graph.n {
            let mut slice = stack.clone();
            slice.resize(highest, 0);
            if let Ok(height) = step(graph, &mut slice, stack.len(), next) {
                slice.truncate(height);
                if reached.len() < most && reached.insert(slice.clone()) {
                    waiting.push(slice);
                }
            }
        }
    }
    reached
}

fn assert_inspections_agree(graph: &Graph, solution: &Solution, stack: &[u16]) {
    for permission in 0..graph.k {
        let height = stack.len();
        let full = full_inspection(graph, stack, height, permission).unwrap();
        let quick =
            quick_inspection(graph, &solution.denied, &solution.granted, stack, height, permission)
                .unwrap();
        assert_eq!(full.passes, quick.passes, "{graph:?} {stack:?} {permission}");
        assert!(quick.frames <= full.frames, "{graph:?} {stack:?} {permission}");
    }
}

#[test]
fn quick_inspection_agrees_with_full_on_reachable_stacks() {
    let mut numbers = Numbers(2);
    for _ in 0..300 {
        let graph = some_graph(&mut numbers, 2, 6, 14);
        let solution = solve(&graph).unwrap();
        for stack in reachable_up_to(&graph, 5, 200) {
            assert_inspections_agree(&graph, &solution, &stack);
        }
    }
}
