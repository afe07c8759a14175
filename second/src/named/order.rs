//! Every call on one graph: its limits, and the order of refusals where two of them apply. Names
//! say which number is given before which.

use super::build::{called, full, gateway_with, quick, sized, solve, stack, step, verdict};
use super::Case;
use crate::build::gateway;
use crate::graph::{Graph, CHECK};
use crate::requests::Call;
use crate::sets::all;

pub fn cases() -> Vec<Case> {
    [limits(), by_every_call(), asked(), stacks(), rules()].concat()
}

/// Node 0 is a check that leads to itself, so that no call is refused for anything but the counts.
fn limits() -> Vec<Case> {
    let every_call = |k: usize, n: usize, m: usize| {
        let mut graph = Graph { ways: vec![1; m], ..sized(k, n, m, all(k)) };
        graph.kinds[0] = CHECK;
        let lent = stack(1, &[0]);
        let calls = [Call::Check, solve(&graph), verdict(0), lent, full(0), quick(0), step(0)];
        called(format!("every call, K {k} N {n} M {m}"), &graph, &calls)
    };
    vec![
        every_call(63, 2, 2),
        every_call(64, 2, 2),
        every_call(65, 2, 2),
        every_call(1, 1_024, 1),
        every_call(1, 1_025, 1),
        every_call(1, 1, 4_096),
        every_call(1, 1, 4_097),
    ]
}

/// Every call that judges the graph, asked for what is there. Solving lends its sets, also after
/// a refusal.
fn every_call(name: &str, graph: &Graph) -> Case {
    let lent = stack(2, &[0, 2]);
    let calls = [Call::Check, solve(graph), verdict(5), lent, full(0), quick(0), step(3)];
    called(format!("every call, {name}"), graph, &calls)
}

fn bad_node(graph: &mut Graph) {
    graph.kinds[3] = 3;
}

fn bad_edge(graph: &mut Graph) {
    graph.tos[4] = 8;
}

fn no_entry(graph: &mut Graph) {
    graph.entries = vec![0; 8];
}

fn by_every_call() -> Vec<Case> {
    let wrong = |faults: &[fn(&mut Graph)]| gateway_with(|g| faults.iter().for_each(|f| f(g)));
    vec![
        every_call("no refusal", &gateway()),
        every_call("1 alone", &wrong(&[|g| g.k = 65])),
        every_call("2 alone", &wrong(&[bad_node])),
        every_call("3 alone", &wrong(&[bad_edge])),
        every_call("4 alone", &wrong(&[no_entry])),
        every_call("1 before 2: K 65 and a bad node", &wrong(&[|g| g.k = 65, bad_node])),
        every_call("1 before 2: a long slice, a bad node", &wrong(&[|g| g.ways.push(0), bad_node])),
        every_call("1 before 4: M 4097 and no entry", &wrong(&[|g| g.m = 4_097, no_entry])),
        every_call("2 before 3: a bad node and a bad edge", &wrong(&[bad_node, bad_edge])),
        every_call("2 before 4: a bad node and no entry", &wrong(&[bad_node, no_entry])),
        every_call("3 before 4: a bad edge and no entry", &wrong(&[bad_edge, no_entry])),
        every_call("1 before 4: all four", &wrong(&[|g| g.n = 0, bad_node, bad_edge, no_entry])),
    ]
}

/// Every call that is asked for a node or a permission, for one that isn't there.
fn asked() -> Vec<Case> {
    let solved = || solve(&gateway());
    let ask_for = |name: &str, graph: &Graph| {
        let calls = [solve(graph), verdict(8), stack(2, &[0, 2]), full(2), quick(2), step(8)];
        called(format!("asked for what isn't there, {name}"), graph, &calls)
    };
    let short = Call::Solve { lengths: [7, 8, 8, 8] };
    vec![
        ask_for("5 alone", &gateway()),
        ask_for("1 before 5: K 0", &gateway_with(|g| g.k = 0)),
        ask_for("2 before 5: a bad node", &gateway_with(bad_node)),
        ask_for("3 before 5: a bad edge", &gateway_with(bad_edge)),
        ask_for("4 before 5: no entry", &gateway_with(no_entry)),
        called(
            "solve, verdict, quick, 1 before 2: seven sets and a bad node",
            &gateway_with(bad_node),
            &[short.clone(), verdict(5), stack(0, &[]), quick(0)],
        ),
        called(
            "verdict, quick, 1 before 5: seven sets",
            &gateway(),
            &[short, verdict(8), quick(2)],
        ),
        called("verdict, 4 before 7: no entry", &gateway_with(no_entry), &[solved(), verdict(4)]),
        called(
            "verdict, 5 before 7: a node that isn't there is no check",
            &gateway(),
            &[solved(), verdict(8)],
        ),
    ]
}

/// Every call that takes a stack, with one that is none.
fn stacks() -> Vec<Case> {
    let on = |name: &str, graph: &Graph, lent: Call, permission: u64, next: u64| {
        let calls = [solve(graph), lent, full(permission), quick(permission), step(next)];
        called(format!("stack, {name}"), graph, &calls)
    };
    let (high, bad, long) = (|| stack(3, &[0, 2]), || stack(2, &[0, 8]), || stack(2, &[0; 1_025]));
    vec![
        on("6 alone: height 3 of 2", &gateway(), high(), 0, 3),
        on("6 alone: node 8", &gateway(), bad(), 0, 3),
        on("6 alone: a slice of 1025", &gateway(), long(), 0, 2),
        on("5 before 6: height 3 of 2", &gateway(), high(), 2, 8),
        on("5 before 6: node 8", &gateway(), bad(), 2, 8),
        on("5 before 6: a slice of 1025", &gateway(), long(), 2, 8),
        on("4 before 6: height 3 of 2 and no entry", &gateway_with(no_entry), high(), 0, 3),
        on("3 before 6: node 8 and a bad edge", &gateway_with(bad_edge), bad(), 0, 3),
        on("2 before 6: a slice of 1025 and a bad node", &gateway_with(bad_node), long(), 0, 2),
    ]
}

/// What only the step is refused with.
fn rules() -> Vec<Case> {
    let on = |name: &str, graph: &Graph, lent: Call, next: u64| {
        called(format!("step, {name}"), graph, &[lent, step(next)])
    };
    let gateway = gateway();
    vec![
        on("5 before 8: next node 8 on a lone return", &gateway, stack(1, &[7, 9]), 8),
        on("6 before 8: node 8 below, no edge", &gateway, stack(2, &[8, 4, 9]), 3),
        on("6 before 8: height 1 of 0, no entry", &gateway, stack(1, &[]), 3),
        on("6 before 9: node 8 below the denied check", &gateway, stack(3, &[8, 1, 2]), 3),
        on("6 before 10: node 8 below, a full slice", &gateway, stack(2, &[8, 1]), 4),
        on("8 before 9: denied check, no edge", &gateway, stack(2, &[1, 2, 9]), 6),
        on("8 before 10: a full slice, no edge", &gateway, stack(1, &[1]), 3),
        on("8 before 10: no place and no entry", &gateway, stack(0, &[]), 2),
        on("8 before 10: 1024 frames, no edge", &gateway, stack(1_024, &[1; 1_024]), 3),
        on("9 alone: denied check in a full slice", &gateway, stack(2, &[1, 2]), 3),
        on("10 alone: a full slice", &gateway, stack(2, &[1, 4]), 5),
        on("4 before 8: no entry to enter", &gateway_with(no_entry), stack(0, &[9]), 0),
    ]
}
