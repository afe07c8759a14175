//! The graph check: each slice's length, the ranges of K, N and M, the rules of nodes and edges.

use super::build::{called, gateway_resized, gateway_with, sized, SLICES};
use super::Case;
use crate::build::{empty_graph, gateway};
use crate::graph::{Graph, CALL, CHECK, RETURN};
use crate::requests::Call;
use crate::sets;

pub fn cases() -> Vec<Case> {
    [
        vec![checked("worked gateway", &gateway())],
        lengths(),
        ranges(),
        limits(),
        nodes(),
        node_rules_at_their_edges(),
        edges(),
        edge_ends(),
        entries(),
    ]
    .concat()
}

fn checked(name: &str, graph: &Graph) -> Case {
    called(format!("check: {name}"), graph, &[Call::Check])
}

/// Every slice one short, as it has to be, and one long.
fn lengths() -> Vec<Case> {
    let one = |slice: &str, length: usize| {
        checked(&format!("gateway, {slice} of length {length}"), &gateway_resized(slice, length))
    };
    SLICES.iter().flat_map(|slice| [7, 8, 9].map(|length| one(slice, length))).collect()
}

fn counted(k: usize, n: usize, m: usize, granted: u64) -> Case {
    checked(&format!("K {k} N {n} M {m}"), &sized(k, n, m, granted))
}

fn ranges() -> Vec<Case> {
    const MOST: usize = usize::MAX;
    vec![
        counted(1, 1, 0, 1),
        counted(64, 1_024, 4_096, u64::MAX),
        counted(0, 1, 0, 0),
        counted(65, 1, 0, 0),
        counted(MOST, 1, 0, 0),
        counted(1, 0, 0, 0),
        counted(1, 1_025, 0, 0),
        counted(1, MOST, 0, 0),
        counted(1, 1, 4_097, 0),
        counted(1, 1, MOST, 0),
        counted(MOST, MOST, MOST, 0),
        checked("K 63 N 2 M 0, permission 63 granted", &sized(63, 2, 0, u64::MAX)),
        checked("K 65 N 2 M 0, permission 63 granted", &sized(65, 2, 0, u64::MAX)),
    ]
}

/// One count at its limit, the others small.
fn limits() -> Vec<Case> {
    vec![
        checked("K 63, all granted", &sized(63, 1, 0, sets::all(63))),
        checked("K 64, all granted", &sized(64, 1, 0, sets::all(64))),
        checked("K 65, all that a set holds granted", &sized(65, 1, 0, sets::all(65))),
        checked("N 1023", &sized(1, 1_023, 0, 0)),
        checked("N 1024", &sized(1, 1_024, 0, 0)),
        checked("M 4095", &sized(1, 1, 4_095, 0)),
        checked("M 4096", &sized(1, 1, 4_096, 0)),
        // The slices are as long as they may be, and one of the counts is not theirs.
        checked("N 1024, slices of 1025", &Graph { n: 1_024, ..sized(1, 1_025, 0, 0) }),
        checked("M 4096, slices of 4097", &Graph { m: 4_096, ..sized(1, 1, 4_097, 0) }),
        checked("N 0 with slices of 1", &Graph { n: 0, ..sized(1, 1, 0, 0) }),
        checked("M 0 with slices of 1", &Graph { m: 0, ..sized(1, 1, 1, 0) }),
    ]
}

fn changed(name: &str, change: impl Fn(&mut Graph)) -> Case {
    checked(&format!("gateway, {name}"), &gateway_with(change))
}

/// Node 5 is a check, 4 a call, 7 a return; K is 2.
fn nodes() -> Vec<Case> {
    vec![
        changed("kinds at 3 is 3", |g| g.kinds[3] = 3),
        changed("kinds at 7 is 255", |g| g.kinds[7] = 255),
        changed("checks at 5 is 1", |g| g.checks[5] = 1),
        changed("checks at 5 is 2", |g| g.checks[5] = 2),
        changed("checks at 5 is 65535", |g| g.checks[5] = 65_535),
        changed("checks at 4 is 1", |g| g.checks[4] = 1),
        changed("checks at 7 is 1", |g| g.checks[7] = 1),
        changed("privileged at 0 is 2", |g| g.privileged[0] = 2),
        changed("privileged at 6 is 255", |g| g.privileged[6] = 255),
        changed("entries at 1 is 2", |g| g.entries[1] = 2),
        changed("entries at 7 is 255", |g| g.entries[7] = 255),
        changed("grants at 0 is 4", |g| g.grants[0] = 4),
        changed("grants at 2 is 32768", |g| g.grants[2] = 32_768),
    ]
}

/// The side of each node rule that is still right, and places that are first or last.
fn node_rules_at_their_edges() -> Vec<Case> {
    vec![
        changed("every node privileged", |g| g.privileged = vec![1; 8]),
        changed("every node an entry", |g| g.entries = vec![1; 8]),
        changed("checks at 0 is 1", |g| g.checks[0] = 1),
        changed("kinds at 0 is 3", |g| g.kinds[0] = 3),
        changed("grants at 7 is 4", |g| g.grants[7] = 4),
        changed("grants at 7 is the largest", |g| g.grants[7] = u64::MAX),
        checked("a lone call", &lone(CALL, 0, 0)),
        checked("a lone return", &lone(RETURN, 0, 0)),
        checked("a lone check", &lone(CHECK, 0, 0)),
        checked("K 64, a check of 63", &Graph { k: 64, ..lone(CHECK, 63, 0) }),
        checked("K 64, a check of 64", &Graph { k: 64, ..lone(CHECK, 64, 0) }),
        checked("K 64, a return with a check of 63", &Graph { k: 64, ..lone(RETURN, 63, 0) }),
        checked("K 1, permission 1 granted", &lone(CALL, 0, 2)),
        checked("K 1, permission 63 granted", &lone(CALL, 0, 1 << 63)),
    ]
}

/// One permission, one entry node, no edges.
fn lone(kind: u8, check: u16, granted: u64) -> Graph {
    Graph { kinds: vec![kind], checks: vec![check], ..sized(1, 1, 0, granted) }
}

fn edges() -> Vec<Case> {
    vec![
        changed("froms at 0 is 8", |g| g.froms[0] = 8),
        changed("froms at 7 is 65535", |g| g.froms[7] = 65_535),
        changed("tos at 3 is 8", |g| g.tos[3] = 8),
        changed("tos at 4 is 65535", |g| g.tos[4] = 65_535),
        changed("ways at 1 is 2", |g| g.ways[1] = 2),
        changed("ways at 6 is 255", |g| g.ways[6] = 255),
        changed("ways at 2 is 0, a call edge from a check", |g| g.ways[2] = 0),
        changed("froms at 1 is 3, a call edge from a return", |g| g.froms[1] = 3),
        changed("froms at 6 is 3, a transfer edge from a return", |g| g.froms[6] = 3),
        changed("ways at 3 is 1, a transfer edge between unequal grants", |g| g.ways[3] = 1),
        changed("ways at 4 is 1, a transfer edge between equal grants", |g| g.ways[4] = 1),
        changed("tos at 4 is 4, a call to itself", |g| g.tos[4] = 4),
    ]
}

/// Two calls with the same grants: the last node as an end, and the number after it.
fn edge_ends() -> Vec<Case> {
    let pair = || empty_graph(1).call_node("E", &[0]).call_node("", &[0]);
    vec![
        checked("two calls, an edge from the last node", &pair().call(1, 0)),
        checked("two calls, an edge from node 2", &pair().call(2, 0)),
        checked("two calls, an edge to the last node", &pair().call(0, 1)),
        checked("two calls, an edge to node 2", &pair().call(0, 2)),
        checked("two calls, a transfer edge to the last node", &pair().transfer(0, 1)),
        checked("two calls, a transfer edge to node 2", &pair().transfer(0, 2)),
        checked("two calls, a transfer edge to itself", &pair().transfer(0, 0)),
        checked("two calls, the same edge twice", &pair().call(0, 1).call(0, 1)),
        checked("two calls, the second of two edges is bad", &pair().call(0, 1).call(0, 2)),
        checked("two calls, a call edge to other grants", &more_granted().call(0, 1)),
        checked("two calls, a transfer edge to more grants", &more_granted().transfer(0, 1)),
        checked("two calls, a transfer edge to fewer grants", &more_granted().transfer(1, 0)),
    ]
}

fn more_granted() -> Graph {
    empty_graph(1).call_node("E", &[]).call_node("", &[0])
}

/// Entries 0 and 1, a check 2 and a return 3.
fn four() -> Graph {
    empty_graph(1)
        .call_node("E", &[0])
        .call_node("E", &[0])
        .check_node(0, "", &[0])
        .return_node("", &[0])
        .call(0, 2)
        .call(1, 2)
        .transfer(2, 3)
}

fn four_with(name: &str, change: impl Fn(&mut Graph)) -> Case {
    let mut graph = four();
    change(&mut graph);
    checked(name, &graph)
}

/// What is wrong twice, what is wrong in two ways, and the entries.
fn entries() -> Vec<Case> {
    let mark_two = |g: &mut Graph| g.privileged = vec![0, 2, 0, 2];
    let no_entry = |g: &mut Graph| g.entries = vec![0; 4];
    vec![
        four_with("four nodes", |_| ()),
        four_with("two bad nodes", mark_two),
        four_with("two bad edges", |g| (g.tos[1], g.ways[2]) = (4, 2)),
        four_with("a bad node and a bad edge", |g| (g.kinds[2], g.tos[1]) = (3, 4)),
        four_with("a bad edge and no entry", |g| {
            no_entry(g);
            g.ways[2] = 2;
        }),
        four_with("a bad node and no entry", |g| {
            no_entry(g);
            mark_two(g);
        }),
        four_with("no entry", no_entry),
        four_with("the last node the only entry", |g| g.entries = vec![0, 0, 0, 1]),
    ]
}
