//! The answers to T and L: the graph that the reader stores, as rows.

use super::{numbers, Malformed};
use crate::graph::{Graph, Refusal, MOST_EDGES, MOST_NODES};
use crate::rows::{refused_row, spaced};
use crate::tally::Tally;
use crate::text::read_graph;

/// The lengths that the reader asks of its slices: five for nodes, three for edges.
pub const READER_LENGTHS: [usize; 8] = [
    MOST_NODES, MOST_NODES, MOST_NODES, MOST_NODES, MOST_NODES, MOST_EDGES, MOST_EDGES, MOST_EDGES,
];

pub fn answer_text(text: &[u8], lengths: &[usize; 8], tally: &mut Tally) -> String {
    tally.texts += 1;
    match read_into(lengths, text) {
        Ok(graph) => {
            tally.accepted_texts += 1;
            rows_of(&graph)
        }
        Err(refusal) => {
            tally.refusals[usize::from(refusal.number)] += 1;
            refused_row(refusal)
        }
    }
}

fn read_into(lengths: &[usize; 8], text: &[u8]) -> Result<Graph, Refusal> {
    if *lengths != READER_LENGTHS {
        return Err(Refusal::without_place(1));
    }
    read_graph(text)
}

pub fn answer_lengths_and_text(body: &[u8], tally: &mut Tally) -> Result<String, Malformed> {
    let mut lengths = [0; 8];
    let mut rest = body;
    for length in &mut lengths {
        let space =
            rest.iter().position(|&byte| byte == b' ').ok_or(Malformed("a length too few"))?;
        *length = numbers::as_index(numbers::read_number(&rest[..space])?);
        rest = &rest[space + 1..];
    }
    Ok(answer_text(rest, &lengths, tally))
}

/// The rows of an accepted graph as the text would have them.
pub fn rows_of(graph: &Graph) -> String {
    let mut rows = format!("G,{},{},{},,\r\n", graph.k, graph.n, graph.m);
    (0..graph.n).for_each(|node| rows += &node_row(graph, node));
    (0..graph.m).for_each(|edge| rows += &edge_row(graph, edge));
    rows
}

fn node_row(graph: &Graph, node: usize) -> String {
    let kind = ["C", "R", "K"][usize::from(graph.kinds[node])];
    let check = match graph.is_check(node) {
        true => graph.checked_permission(node).to_string(),
        false => String::new(),
    };
    let privileged = if graph.is_privileged(node) { "P" } else { "" };
    let entry = if graph.is_entry(node) { "E" } else { "" };
    let grants = spaced(graph.grants[node]);
    format!("N,{node},{kind},{check},{privileged}{entry},{grants}\r\n")
}

fn edge_row(graph: &Graph, edge: usize) -> String {
    let way = ["C", "T"][usize::from(graph.ways[edge])];
    format!("E,{},{},{way},,\r\n", graph.from(edge), graph.to(edge))
}
