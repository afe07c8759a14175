//! Full and quick inspection, the quick one by the sets that the solver stores.

use super::build::{called, full, gateway_with, quick, sets, sized, solve, stack};
use super::Case;
use crate::build::{empty_graph, gateway};
use crate::graph::Graph;
use crate::requests::Call;

pub fn cases() -> Vec<Case> {
    [gateway_stacks(), bad_stacks(), bad_permissions(), lent_sets(), high_stacks(), permissions()]
        .concat()
}

/// Both inspections of a stack for a permission.
fn both_on(name: &str, graph: &Graph, lent: Call, permission: u64) -> Case {
    let calls = [solve(graph), lent, full(permission), quick(permission)];
    called(format!("inspect: {name}"), graph, &calls)
}

fn both(name: &str, lent: Call, permission: u64) -> Case {
    both_on(name, &gateway(), lent, permission)
}

/// The four stacks that the rules give, and each of the other heights of the third.
fn gateway_stacks() -> Vec<Case> {
    vec![
        both("0 2", stack(2, &[0, 2]), 0),
        both("1 2", stack(2, &[1, 2]), 0),
        both("1 4 5", stack(3, &[1, 4, 5]), 0),
        both("1 4", stack(2, &[1, 4, 5]), 0),
        both("1", stack(1, &[1, 4, 5]), 0),
        both("empty", stack(0, &[1, 4, 5]), 0),
        both("1 4 5, permission 1", stack(3, &[1, 4, 5]), 1),
        both("1 5, which no run reaches", stack(2, &[1, 5]), 0),
        both("a slice of no places", stack(0, &[]), 0),
        called("inspect: no stack lent", &gateway(), &[solve(&gateway()), full(0), quick(0)]),
        both("0 3, past the check", stack(2, &[0, 3]), 0),
        both("1 6, back from the privileged call", stack(2, &[1, 6]), 0),
        both("7, where a run ends", stack(1, &[7]), 0),
        both("1 2, permission 1", stack(2, &[1, 2]), 1),
    ]
}

fn bad_stacks() -> Vec<Case> {
    vec![
        both("node 8 under the height", stack(3, &[1, 4, 8]), 0),
        both("node 8 above the height", stack(2, &[1, 4, 8]), 0),
        both("height 4 of 3", stack(4, &[1, 4, 8]), 0),
        both("the largest height", stack(u64::MAX, &[1, 4, 8]), 0),
        both("height 4 of 3, all nodes right", stack(4, &[1, 4, 5]), 0),
        both("height 1 of 0", stack(1, &[]), 0),
        both("node 8 at the bottom", stack(3, &[8, 4, 5]), 0),
        both("node 7, the last, at the bottom", stack(3, &[7, 4, 5]), 0),
        both("node 65535 under the height", stack(1, &[65_535]), 0),
        both("height 2 to the 32 and 1", stack((1 << 32) + 1, &[1, 4, 5]), 0),
    ]
}

fn bad_permissions() -> Vec<Case> {
    vec![
        both("permission 2", stack(2, &[1, 4, 8]), 2),
        both("permission 2 and node 8", stack(3, &[1, 4, 8]), 2),
        both("the largest permission", stack(2, &[1, 4, 8]), u64::MAX),
        both("permission 2, empty stack", stack(0, &[]), 2),
        both("permission 64", stack(2, &[1, 4]), 64),
        both("permission 2 to the 32", stack(2, &[1, 4]), 1 << 32),
    ]
}

/// The quick inspection takes the sets as they are; the full one takes none.
fn lent_sets() -> Vec<Case> {
    let by = |name: &str, lent: Call| {
        let calls = [lent, stack(2, &[1, 4, 8]), full(0), quick(0)];
        called(format!("inspect: {name}"), &gateway(), &calls)
    };
    let (denied, granted) = ([0, 1, 0, 0, 0, 0, 0, 1], [3, 2, 2, 3, 3, 3, 2, 2]);
    let longer = |lent: &[u64]| [lent, &[0]].concat();
    vec![
        by("seven sets", sets(&denied[..7], &granted[..7])),
        by("eight sets", sets(&denied, &granted)),
        by("nine sets", sets(&longer(&denied), &longer(&granted))),
        by("denied of length 7", sets(&denied[..7], &granted)),
        by("granted of length 7", sets(&denied, &granted[..7])),
        by("denied of length 9", sets(&longer(&denied), &granted)),
        by("granted of length 9", sets(&denied, &longer(&granted))),
        by("no sets", sets(&[], &[])),
        by("denied and granted both, denied counts", sets(&[1; 8], &[1; 8])),
        by("neither denied nor granted, past the bottom", sets(&[0; 8], &[0; 8])),
        by("members at K and above only", sets(&[u64::MAX - 3; 8], &[u64::MAX - 3; 8])),
    ]
}

fn high_stacks() -> Vec<Case> {
    vec![
        both("a slice of 1025", stack(1, &[4; 1_025]), 0),
        both("a slice of 1025, height 0", stack(0, &[4; 1_025]), 0),
        both("a slice of 1025, height 1025", stack(1_025, &[4; 1_025]), 0),
        both("a slice of 1024, height 1", stack(1, &[4; 1_024]), 0),
        both("a slice of 1024, height 1025", stack(1_025, &[4; 1_024]), 0),
        both("1024 frames", stack(1_024, &[4; 1_024]), 0),
        both("1024 frames to the bottom", stack(1_024, &[0; 1_024]), 0),
        looked_through("1024 frames to the bottom by both", &[0; 1_024]),
        looked_through("1024 frames, the bottom fails", &bottom(1)),
        looked_through("1024 frames, node 8 at the bottom", &bottom(8)),
    ]
}

/// Neither set of any node but 1 holds permission 0, so that the quick one goes down as well.
fn looked_through(name: &str, slice: &[u16]) -> Case {
    let lent = sets(&[0, 1, 0, 0, 0, 0, 0, 0], &[0; 8]);
    let calls = [lent, stack(slice.len() as u64, slice), full(0), quick(0)];
    called(format!("inspect: {name}"), &gateway(), &calls)
}

fn bottom(node: u16) -> Vec<u16> {
    let mut slice = vec![0; 1_024];
    slice[0] = node;
    slice
}

fn permissions() -> Vec<Case> {
    let last = sized(64, 1, 0, 1 << 63);
    let privileged = empty_graph(2).call_node("E", &[1]).call_node("P", &[0]).call(0, 1);
    let unprivileged_too = gateway_with(|g| g.privileged[4] = 0);
    vec![
        both_on("K 64, permission 63", &last, stack(1, &[0]), 63),
        both_on("K 64, permission 62, which is not granted", &last, stack(1, &[0]), 62),
        both_on("K 64, permission 64", &last, stack(1, &[0]), 64),
        both_on("privileged without the permission", &privileged, stack(2, &[0, 1]), 1),
        both_on("privileged with the permission", &privileged, stack(2, &[0, 1]), 0),
        both_on("1 4 5 without the mark", &unprivileged_too, stack(3, &[1, 4, 5]), 0),
    ]
}
