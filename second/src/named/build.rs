//! Short ways to write a case.

use super::Case;
use crate::build::gateway;
use crate::graph::Graph;
use crate::requests::{graph_numbers, spaced_numbers, Call, Request, READER_LENGTHS};

/// The slices of a graph, in the order of every call.
pub const SLICES: [&str; 8] =
    ["kinds", "checks", "privileged", "entries", "grants", "froms", "tos", "ways"];

/// Calls on a graph, in one request.
pub fn called(name: impl Into<String>, graph: &Graph, calls: &[Call]) -> Case {
    let mut numbers = graph_numbers(graph);
    calls.iter().for_each(|call| numbers.extend(call.numbers()));
    let body = spaced_numbers(&numbers).into_bytes();
    Case { name: name.into(), requests: vec![Request { letter: b'C', body }] }
}

pub fn gateway_with(change: impl Fn(&mut Graph)) -> Graph {
    let mut graph = gateway();
    change(&mut graph);
    graph
}

/// The worked gateway with one slice of another length. What is added would be right there.
pub fn gateway_resized(slice: &str, length: usize) -> Graph {
    gateway_with(|graph| match slice {
        "kinds" => graph.kinds.resize(length, 0),
        "checks" => graph.checks.resize(length, 0),
        "privileged" => graph.privileged.resize(length, 0),
        "entries" => graph.entries.resize(length, 0),
        "grants" => graph.grants.resize(length, 3),
        "froms" => graph.froms.resize(length, 0),
        "tos" => graph.tos.resize(length, 2),
        "ways" => graph.ways.resize(length, 0),
        _ => unreachable!("a slice that no graph has"),
    })
}

/// Entry calls that all grant the same, with call edges from node 0 to itself. Where a count is
/// larger than the protocol's slices may be, they are as long as they may.
pub fn sized(k: usize, n: usize, m: usize, granted: u64) -> Graph {
    let (nodes, edges) = (n.min(1_025), m.min(4_097));
    Graph {
        k,
        n,
        m,
        kinds: vec![0; nodes],
        checks: vec![0; nodes],
        privileged: vec![0; nodes],
        entries: vec![1; nodes],
        grants: vec![granted; nodes],
        froms: vec![0; edges],
        tos: vec![0; edges],
        ways: vec![0; edges],
    }
}

/// Solves into slices of the lengths that the graph's own slices have.
pub fn solve(graph: &Graph) -> Call {
    let (nodes, edges) = (graph.kinds.len(), graph.froms.len());
    Call::Solve { lengths: [nodes, nodes, edges, edges] }
}

pub fn verdict(node: u64) -> Call {
    Call::Verdict { node }
}

pub fn full(permission: u64) -> Call {
    Call::Full { permission }
}

pub fn quick(permission: u64) -> Call {
    Call::Quick { permission }
}

pub fn step(next: u64) -> Call {
    Call::Step { next }
}

/// Lends the first places of a slice as a stack.
pub fn stack(height: u64, slice: &[u16]) -> Call {
    Call::LendStack { height, slice: slice.to_vec() }
}

pub fn sets(denied: &[u64], granted: &[u64]) -> Call {
    Call::LendSets { denied: denied.to_vec(), granted: granted.to_vec() }
}

pub fn print_result(length: u64) -> Call {
    Call::PrintResult { length }
}

pub fn print_refusal(number: u64, place: u64, length: u64) -> Call {
    Call::PrintRefusal { number, place, length }
}

/// A text for the reader.
pub fn text(name: impl Into<String>, text: &[u8]) -> Case {
    Case { name: name.into(), requests: vec![text_request(text)] }
}

/// A text, and if it has no quotes the same with a quote before and after every field.
pub fn text_and_quoted(name: impl Into<String>, text: &[u8]) -> Case {
    let mut requests = vec![text_request(text)];
    if !text.contains(&b'"') {
        requests.push(text_request(&quoted(text)));
    }
    Case { name: name.into(), requests }
}

fn text_request(text: &[u8]) -> Request {
    Request { letter: b'T', body: text.to_vec() }
}

fn quoted(text: &[u8]) -> Vec<u8> {
    let mut quoted = Vec::new();
    for place in 0..text.len() {
        let (before, after) = text.split_at(place);
        if before.is_empty() || before.ends_with(b",") || before.ends_with(b"\r\n") {
            quoted.push(b'"');
        }
        if after.starts_with(b",") || after.starts_with(b"\r\n") {
            quoted.push(b'"');
        }
        quoted.push(after[0]);
    }
    quoted.extend(last_quotes(text));
    quoted
}

/// Past a row end at the text's end there is no field; after a comma there is an empty one.
fn last_quotes(text: &[u8]) -> &'static [u8] {
    if text.is_empty() || text.ends_with(b"\r\n") {
        b""
    } else if text.ends_with(b",") {
        b"\"\""
    } else {
        b"\""
    }
}

/// A text for the reader with lent slices of these lengths.
pub fn lengths_request(lengths: &[usize; 8], text: &[u8]) -> Request {
    let mut body: Vec<u8> = spaced_numbers(lengths).into_bytes();
    body.push(b' ');
    body.extend(text);
    Request { letter: b'L', body }
}

/// The lengths that the reader asks for, with one of them changed.
pub fn lengths_but(slice: usize, length: usize) -> [usize; 8] {
    let mut lengths = READER_LENGTHS;
    lengths[slice] = length;
    lengths
}
