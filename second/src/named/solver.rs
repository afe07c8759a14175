//! What the solver stores and what the verdict says of it.

use super::build::{called, gateway_with, sets, sized, solve, verdict};
use super::Case;
use crate::build::{empty_graph, gateway};
use crate::graph::Graph;
use crate::requests::Call;
use crate::sets::all;

pub fn cases() -> Vec<Case> {
    [
        worked(),
        look_right(),
        limits(),
        lengths(),
        spoilt(),
        verdict_lengths(),
        verdict_nodes(),
        taken(),
        largest_verdict(),
    ]
    .concat()
}

/// All that is stored, then the verdict at every node; it is refused where there is no check.
pub(super) fn judged(name: &str, graph: &Graph) -> Case {
    let verdicts = (0..graph.n as u64).map(verdict);
    let calls: Vec<Call> = [solve(graph)].into_iter().chain(verdicts).collect();
    called(format!("solve: {name}"), graph, &calls)
}

fn worked() -> Vec<Case> {
    // The arriving edge carries permission 1 alone, and the check of 0 passes by its own privilege.
    let privileged_check = empty_graph(2)
        .call_node("E", &[1])
        .check_node(0, "P", &[0, 1])
        .return_node("", &[0, 1])
        .call(0, 1)
        .transfer(1, 2);
    // The largest solution of MAY would leave permission 1 undenied here.
    let transfer_loop = empty_graph(2).call_node("E", &[0]).transfer(0, 0);
    // Nothing passes the check, so both systems are empty after it.
    let dead_end = empty_graph(2).check_node(1, "E", &[0]).return_node("", &[0]).transfer(0, 1);
    // Where nothing arrives, SURE is not cut to the orphan's grants.
    let orphan = empty_graph(2).call_node("E", &[0, 1]).check_node(1, "", &[0]);
    vec![
        judged("gateway", &gateway()),
        judged("privileged check", &privileged_check),
        judged("loop", &transfer_loop),
        judged("dead end", &dead_end),
        judged("orphan", &orphan),
        judged("privileged check of what it is not granted", &privileged_dead_end()),
        judged("loop that nothing enters", &unentered_loop()),
        judged("check passed by some", &passed_by_some()),
    ]
}

fn privileged_dead_end() -> Graph {
    empty_graph(2).check_node(0, "PE", &[1]).return_node("", &[1]).transfer(0, 1)
}

fn unentered_loop() -> Graph {
    empty_graph(2).call_node("E", &[0]).call_node("", &[0]).transfer(1, 1)
}

/// After the check its permission is sure, which no caller alone would make it.
fn passed_by_some() -> Graph {
    empty_graph(2)
        .call_node("E", &[0, 1])
        .call_node("E", &[])
        .call_node("", &[0, 1])
        .check_node(0, "", &[0, 1])
        .return_node("", &[0, 1])
        .call(0, 2)
        .call(1, 2)
        .call(2, 3)
        .transfer(3, 4)
}

/// A graph for each of the errors that look right, on which the error shows.
fn look_right() -> Vec<Case> {
    let privilege_ends = empty_graph(2)
        .call_node("E", &[1])
        .call_node("P", &[0, 1])
        .return_node("", &[0, 1])
        .call(0, 1)
        .transfer(1, 2);
    let unreached_call = empty_graph(3).call_node("E", &[0]).call_node("", &[0]);
    let cannot_pass = empty_graph(2)
        .call_node("E", &[0, 1])
        .call_node("E", &[])
        .check_node(0, "", &[0, 1])
        .return_node("", &[0, 1])
        .call(0, 2)
        .call(1, 2)
        .transfer(2, 3);
    let entry_with_callers = empty_graph(1).call_node("E", &[]).check_node(0, "E", &[0]).call(0, 1);
    vec![
        judged("a privileged call moves on without its privilege", &privilege_ends),
        judged("where nothing arrives SURE stays all K", &unreached_call),
        judged("callers that can't pass a check weaken nothing after it", &cannot_pass),
        judged("an entry that also has callers", &entry_with_callers),
    ]
}

fn solved(name: &str, graph: &Graph) -> Case {
    called(format!("solve: {name}"), graph, &[solve(graph)])
}

fn limits() -> Vec<Case> {
    let counted = |k, n, m| solved(&format!("K {k} N {n} M {m}"), &sized(k, n, m, all(k)));
    vec![
        counted(64, 1_024, 4_096),
        counted(64, 1_025, 4_096),
        counted(65, 1_024, 4_096),
        counted(64, 1_024, 4_097),
        counted(1, 1, 0),
        counted(63, 1, 1),
        counted(64, 1, 1),
        counted(65, 1, 1),
        counted(0, 1, 1),
        counted(1, 0, 0),
        counted(1, 1_024, 0),
        counted(1, 1, 4_096),
    ]
}

/// Each of the four lent slices one short, one long and empty.
fn lengths() -> Vec<Case> {
    let slices = ["denied", "granted", "may", "sure"];
    let one = |slice: usize, length: usize| {
        let mut lengths = [8; 4];
        lengths[slice] = length;
        let name = format!("solve: {} of length {length}", slices[slice]);
        called(name, &gateway(), &[Call::Solve { lengths }])
    };
    [7, 9, 0].iter().flat_map(|&length| (0..4).map(move |slice| one(slice, length))).collect()
}

fn spoilt() -> Vec<Case> {
    vec![
        solved("nothing wrong", &gateway()),
        solved("a bad node", &gateway_with(|g| g.kinds[3] = 3)),
        solved("a bad edge", &gateway_with(|g| g.tos[3] = 8)),
        solved("no entry", &gateway_with(|g| g.entries = vec![0; 8])),
    ]
}

/// The verdict at a node, from sets that are the same at every node.
struct Ask {
    node: u64,
    denied: (u64, usize),
    granted: (u64, usize),
}

impl Ask {
    fn at(node: u64) -> Ask {
        Ask { node, denied: (0, 8), granted: (3, 8) }
    }

    fn case(&self, name: &str, graph: &Graph) -> Case {
        let lent = sets(&vec![self.denied.0; self.denied.1], &vec![self.granted.0; self.granted.1]);
        called(name, graph, &[lent, verdict(self.node)])
    }
}

fn verdict_lengths() -> Vec<Case> {
    let of_lengths = |denied: usize, granted: usize| Ask {
        denied: (0, denied),
        granted: (3, granted),
        ..Ask::at(5)
    };
    let bad_node = gateway_with(|g| g.kinds[3] = 3);
    vec![
        of_lengths(7, 8).case("verdict: denied of length 7", &gateway()),
        of_lengths(9, 8).case("verdict: denied of length 9", &gateway()),
        of_lengths(0, 8).case("verdict: denied of length 0", &gateway()),
        of_lengths(8, 7).case("verdict: granted of length 7", &gateway()),
        of_lengths(8, 9).case("verdict: granted of length 9", &gateway()),
        of_lengths(8, 0).case("verdict: granted of length 0", &gateway()),
        called("verdict: no sets lent", &gateway(), &[verdict(5)]),
        Ask::at(5).case("verdict: a bad node", &bad_node),
        Ask::at(8).case("verdict: a bad node and node 8", &bad_node),
        Ask::at(5).case("verdict: a bad edge", &gateway_with(|g| g.tos[3] = 8)),
        Ask::at(5).case("verdict: no entry", &gateway_with(|g| g.entries = vec![0; 8])),
    ]
}

fn verdict_nodes() -> Vec<Case> {
    let last_a_check = gateway_with(|g| g.kinds[7] = 2);
    vec![
        Ask::at(8).case("verdict: node 8", &gateway()),
        Ask::at(u64::MAX).case("verdict: the largest node", &gateway()),
        Ask::at(4).case("verdict: a call", &gateway()),
        Ask::at(7).case("verdict: a return, the last node", &gateway()),
        Ask::at(7).case("verdict: a check, the last node", &last_a_check),
        Ask::at(0).case("verdict: a call, the first node", &gateway()),
        Ask::at(1 << 16).case("verdict: node 2 to the 16", &gateway()),
        Ask::at((1 << 32) + 5).case("verdict: node 2 to the 32 and 5", &gateway()),
    ]
}

/// The solver gives check 5 denied 0 and granted 3; the verdict takes what it is lent.
fn taken() -> Vec<Case> {
    let lent = |denied, granted| {
        let ask = Ask { denied: (denied, 8), granted: (granted, 8), ..Ask::at(5) };
        ask.case(&format!("verdict: denied {denied}, granted {granted}"), &gateway())
    };
    vec![
        lent(3, 0),
        lent(3, 3),
        lent(0, 0),
        lent(0, 3),
        // Permission 0 alone decides, whatever else the sets hold.
        lent(1, 2),
        lent(2, 1),
        lent(u64::MAX - 1, u64::MAX - 1),
        lent(u64::MAX, u64::MAX),
    ]
}

/// A check of permission 63 as the last of 1,024 nodes.
fn largest_verdict() -> Vec<Case> {
    let mut graph = sized(64, 1_024, 0, all(64));
    (graph.kinds[1_023], graph.checks[1_023]) = (2, 63);
    let calls = [solve(&graph), verdict(1_023), verdict(1_024)];
    vec![called("verdict: nodes 1023 and 1024 of 1024, a check of 63", &graph, &calls)]
}
