use std::collections::BTreeSet;

use crate::build::{gateway, set, with_crlf, GATEWAY_ROWS};
use crate::graph::Graph;
use crate::machine::{full_inspection, quick_inspection, step, Inspection};
use crate::rows::result_of;
use crate::solve::{solve, solve_into, verdict, Solution};

pub const OUTPUT: &str = "node,denied,granted,verdict
0,,0 1,
1,0,1,
2,,1,0
3,,0 1,
4,,0 1,
5,,0 1,1
6,,1,
7,0,1,
";

fn solved() -> (Graph, Solution) {
    let graph = gateway();
    let solution = solve(&graph).unwrap();
    (graph, solution)
}

#[test]
fn prints_the_eight_result_rows() {
    assert_eq!(result_of(with_crlf(GATEWAY_ROWS).as_bytes()), with_crlf(OUTPUT));
}

#[test]
fn is_read_field_by_field() {
    let graph = gateway();
    assert_eq!((graph.k, graph.n, graph.m), (2, 8, 8));
    assert_eq!(graph.kinds, [0, 0, 2, 1, 0, 2, 1, 1]);
    assert_eq!(graph.checks, [0; 8]);
    assert_eq!(graph.privileged, [0, 0, 0, 0, 1, 0, 0, 0]);
    assert_eq!(graph.entries, [1, 1, 0, 0, 0, 0, 0, 0]);
    assert_eq!(graph.grants, [3, 2, 3, 3, 3, 3, 3, 2]);
    assert_eq!(graph.froms, [0, 1, 2, 1, 4, 5, 4, 1]);
    assert_eq!(graph.tos, [2, 2, 3, 4, 5, 6, 6, 7]);
    assert_eq!(graph.ways, [0, 0, 1, 0, 0, 1, 1, 1]);
}

#[test]
fn edge_sets_found_by_hand() {
    let (_, solution) = solved();
    let both = set(&[0, 1]);
    let one = set(&[1]);
    assert_eq!(solution.may_out, [both, one, both, one, both, both, one, one]);
    assert_eq!(solution.sure_out, [both, one, both, one, both, both, one, one]);
}

#[test]
fn the_lent_slices_hold_the_solution() {
    let (graph, solution) = solved();
    let (mut denied, mut granted) = ([9; 8], [9; 8]);
    let (mut may_out, mut sure_out) = ([9; 8], [9; 8]);
    let answer = solve_into(&graph, &mut denied, &mut granted, &mut may_out, &mut sure_out);
    assert_eq!(answer, Ok(()));
    assert_eq!(denied[..], solution.denied);
    assert_eq!(granted[..], solution.granted);
    assert_eq!(may_out[..], solution.may_out);
    assert_eq!(sure_out[..], solution.sure_out);
}

#[test]
fn verdicts_at_the_two_checks() {
    let (graph, solution) = solved();
    assert_eq!(verdict(&graph, &solution.denied, &solution.granted, 2), Ok(0));
    assert_eq!(verdict(&graph, &solution.denied, &solution.granted, 5), Ok(1));
}

fn inspections(stack: &[u16]) -> (Inspection, Inspection) {
    let (graph, solution) = solved();
    let height = stack.len();
    let full = full_inspection(&graph, stack, height, 0).unwrap();
    let quick =
        quick_inspection(&graph, &solution.denied, &solution.granted, stack, height, 0).unwrap();
    (full, quick)
}

fn passes(frames: usize) -> Inspection {
    Inspection { passes: true, frames }
}

fn fails(frames: usize) -> Inspection {
    Inspection { passes: false, frames }
}

#[test]
fn the_four_stacks() {
    assert_eq!(inspections(&[0, 2]), (passes(2), passes(2)));
    assert_eq!(inspections(&[1, 2]), (fails(2), fails(2)));
    assert_eq!(inspections(&[1, 4, 5]), (passes(2), passes(1)));
    assert_eq!(inspections(&[1, 5]), (fails(2), passes(1)));
}

#[test]
fn the_empty_stack_passes_with_count_0() {
    assert_eq!(inspections(&[]), (passes(0), passes(0)));
}

#[test]
fn frames_at_and_above_the_height_are_not_looked_at() {
    let (graph, solution) = solved();
    let stack = [0, 2, 9_999];
    assert_eq!(full_inspection(&graph, &stack, 2, 0), Ok(passes(2)));
    let quick = quick_inspection(&graph, &solution.denied, &solution.granted, &stack, 2, 0);
    assert_eq!(quick, Ok(passes(2)));
}

/// No call of the gateway leads back to itself, so this ends.
fn reachable_stacks(graph: &Graph) -> BTreeSet<Vec<u16>> {
    let mut reached = BTreeSet::from([Vec::new()]);
    let mut waiting: Vec<Vec<u16>> = vec![Vec::new()];
    while let Some(stack) = waiting.pop() {
        for next in 0..graph.n {
            let mut slice = stack.clone();
            slice.push(0);
            if let Ok(height) = step(graph, &mut slice, stack.len(), next) {
                slice.truncate(height);
                if reached.insert(slice.clone()) {
                    waiting.push(slice);
                }
            }
        }
    }
    reached
}

#[test]
fn which_stacks_are_reachable() {
    let expected: BTreeSet<Vec<u16>> = [
        vec![],
        vec![0],
        vec![0, 2],
        vec![0, 3],
        vec![1],
        vec![1, 2],
        vec![1, 4],
        vec![1, 4, 5],
        vec![1, 4, 6],
        vec![1, 6],
        vec![7],
    ]
    .into();
    assert_eq!(reachable_stacks(&gateway()), expected);
}
