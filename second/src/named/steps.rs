//! The step: each rule, each refusal, and that one place is written.

use super::build::{called, gateway_with, stack, step};
use super::Case;
use crate::build::{empty_graph, gateway};
use crate::graph::Graph;

pub fn cases() -> Vec<Case> {
    [run(), one_place(), refused(), no_rule(), asked(), room(), kinds_of_edges()].concat()
}

fn step_on(name: &str, graph: &Graph, height: u64, slice: &[u16], next: u64) -> Case {
    called(format!("step: {name}"), graph, &[stack(height, slice), step(next)])
}

fn one(name: &str, height: u64, slice: &[u16], next: u64) -> Case {
    step_on(name, &gateway(), height, slice, next)
}

/// A run through the privileged reader and back, in a slice of four places: each step alone, then
/// all of them.
fn run() -> Vec<Case> {
    let whole = [1, 4, 5, 6, 6, 7, 7].map(step);
    let calls = [&[stack(0, &[7; 4])], &whole[..]].concat();
    vec![
        one("enter 1", 0, &[7, 7, 7, 7], 1),
        one("call 4", 1, &[1, 7, 7, 7], 4),
        one("call 5", 2, &[1, 4, 7, 7], 5),
        one("past the check to 6", 3, &[1, 4, 5, 7], 6),
        one("return to 6", 3, &[1, 4, 6, 7], 6),
        one("return to 7", 2, &[1, 6, 6, 7], 7),
        one("a lone return", 1, &[7, 6, 6, 7], 7),
        called("step: the whole run, to the lone return", &gateway(), &calls),
    ]
}

/// Every place has a number of its own, also those above the height, which needn't be nodes.
fn one_place() -> Vec<Case> {
    vec![
        one("one place written, entry", 0, &[900, 901, 902], 0),
        one("one place written, call", 1, &[0, 901, 902], 2),
        one("one place written, check", 2, &[0, 2, 902], 3),
        one("one place written, return", 3, &[1, 4, 6, 903, 904], 6),
        one("one place written, return to the bottom", 2, &[1, 6, 902, 903], 7),
        one("check in a full slice", 3, &[1, 4, 5], 6),
        one("return in a full slice", 3, &[1, 4, 6], 6),
        one("return in a full slice of two", 2, &[1, 6], 7),
    ]
}

fn refused() -> Vec<Case> {
    let slice = [1, 2, 7, 8];
    vec![
        one("enter 2, no entry", 0, &slice, 2),
        one("call 3, no edge", 1, &slice, 3),
        one("call 7, a transfer edge", 1, &slice, 7),
        one("past the denied check to 3", 2, &slice, 3),
        one("past the denied check to 4, no edge", 2, &slice, 4),
        one("node 8 on top", 4, &slice, 7),
        one("next node 8", 1, &slice, 8),
        one("the largest next node", 1, &slice, u64::MAX),
        one("height 5 of 4", 5, &slice, 7),
    ]
}

/// Each rule with nothing that leads on.
fn no_rule() -> Vec<Case> {
    vec![
        one("enter the last node, no entry", 0, &[9, 9], 7),
        one("check, the edge leads elsewhere", 2, &[0, 2, 9], 2),
        one("check, a call edge leads there", 2, &[4, 5, 9], 5),
        one("return, no edge from the frame below", 2, &[0, 3, 9], 3),
        one("return, only a call edge from the frame below", 2, &[1, 6, 9], 4),
        one("return, an edge two frames below", 3, &[1, 0, 3, 9], 7),
        one("a lone return to an entry", 1, &[7, 9], 0),
        one("a return without a frame below, others above", 1, &[3, 4, 5], 6),
    ]
}

fn asked() -> Vec<Case> {
    vec![
        one("next node 7, the last", 2, &[1, 6, 9], 7),
        one("next node 2 to the 16 and 1", 0, &[9, 9], (1 << 16) + 1),
        one("next node 2 to the 32 and 1", 0, &[9, 9], (1 << 32) + 1),
        one("height 4 of 4", 4, &[1, 4, 4, 5], 6),
        one("height 1 of 0", 1, &[], 0),
        one("the largest height", u64::MAX, &[1, 4, 5], 6),
        one("node 8 at the bottom", 2, &[8, 4, 9], 5),
        one("node 8 at the height", 1, &[1, 8, 9], 4),
        one("node 65535 at the bottom", 2, &[65_535, 4, 9], 5),
    ]
}

fn room() -> Vec<Case> {
    vec![
        one("push at height 1023 of 1024", 1_023, &[1; 1_024], 4),
        one("push at height 1024 of 1024", 1_024, &[1; 1_024], 4),
        one("a slice of 1025", 1, &[1; 1_025], 4),
        one("a slice of 1025, height 1024", 1_024, &[1; 1_025], 4),
        one("a slice of 1024, height 1", 1, &[1; 1_024], 4),
        one("push at height 0 of 0", 0, &[], 1),
        one("push at height 0 of 1", 0, &[9], 1),
        one("push at height 1 of 1", 1, &[1], 4),
        one("push at height 1 of 2", 1, &[1, 9], 4),
        one("1024 frames, past the check", 1_024, &topped(&[5]), 6),
        one("1024 frames, return", 1_024, &topped(&[4, 6]), 6),
        called("step: no stack lent", &gateway(), &[step(1)]),
    ]
}

/// Privileged callers up to 1,024 frames, the last ones given.
fn topped(last: &[u16]) -> Vec<u16> {
    let below = vec![4; 1_024 - last.len()];
    [&below, last].concat()
}

fn kinds_of_edges() -> Vec<Case> {
    let pair = || empty_graph(1).call_node("E", &[0]).return_node("", &[0]);
    let check = empty_graph(1).check_node(0, "E", &[]).return_node("", &[]).transfer(0, 1);
    let entry = gateway_with(|g| g.entries = vec![0, 0, 0, 0, 0, 0, 0, 1]);
    let granted = gateway_with(|g| g.grants = vec![3; 8]);
    vec![
        step_on("a call with a transfer edge alone", &pair().transfer(0, 1), 1, &[0, 9], 1),
        step_on("a call with both edges", &pair().transfer(0, 1).call(0, 1), 1, &[0, 9], 1),
        step_on("a return with a call edge alone below", &pair().call(0, 1), 2, &[0, 1], 1),
        step_on("a return with both edges below", &pair().call(0, 1).transfer(0, 1), 2, &[0, 1], 1),
        step_on("a return above a check that would be denied", &check, 2, &[0, 1, 9], 1),
        step_on("enter the last node, an entry", &entry, 0, &[9, 9], 7),
        step_on("past the check that is denied no longer", &granted, 2, &[1, 2, 9], 3),
    ]
}
