//! Requests that follow from no seed, too many or too large to be stored: the worked gateway's
//! text damaged at every place, and large graphs that take the solver long.

use crate::build::{with_crlf, GATEWAY_ROWS};
use crate::graph::{Graph, MOST_EDGES, MOST_NODES};
use crate::requests::{graph_numbers, spaced_numbers, Call, Request};
use crate::shapes::{chain, doubled, laps, ring};

/// What is put in a byte's place: what has a meaning somewhere, and what has none.
const OTHER_BYTES: &[u8] = b"x,\"0189\r\n GNECRKTP\0\xff";

pub fn requests() -> Vec<Request> {
    let gateway = with_crlf(GATEWAY_ROWS).into_bytes();
    let texts = [damaged_bytes(&gateway), damaged_rows(&gateway)].concat();
    let read = texts.into_iter().map(|body| Request { letter: b'T', body });
    read.chain(large_shapes().iter().map(solved)).collect()
}

/// Cut off there, and the byte left out, doubled, and another in its place.
fn damaged_bytes(text: &[u8]) -> Vec<Vec<u8>> {
    let at = |place: usize| {
        let (before, from) = text.split_at(place);
        let after = &from[1..];
        let others = OTHER_BYTES.iter().filter(move |&&other| other != from[0]);
        let replaced = others.map(move |&other| [before, &[other], after].concat());
        [before.to_vec(), [before, after].concat(), [before, &from[..1], from].concat()]
            .into_iter()
            .chain(replaced)
    };
    (0..text.len()).flat_map(at).collect()
}

/// Each row left out, doubled, and exchanged with the next.
fn damaged_rows(text: &[u8]) -> Vec<Vec<u8>> {
    let rows: Vec<&[u8]> = text.split_inclusive(|&byte| byte == b'\n').collect();
    let left_out = |row: usize| [&rows[..row], &rows[row + 1..]].concat().concat();
    let doubled = |row: usize| [&rows[..=row], &rows[row..]].concat().concat();
    let exchanged = |row: usize| {
        let mut rows = rows.clone();
        rows.swap(row, row + 1);
        rows.concat()
    };
    let one_row = (0..rows.len()).flat_map(|row| [left_out(row), doubled(row)]);
    one_row.chain((0..rows.len() - 1).map(exchanged)).collect()
}

/// The rings are smaller than they might be, since plain rounds take seconds on larger ones.
fn large_shapes() -> [Graph; 4] {
    [chain(64, MOST_NODES), doubled(64, MOST_EDGES), ring(64, 110), laps(64, 400)]
}

fn solved(graph: &Graph) -> Request {
    let lengths = [graph.n, graph.n, graph.m, graph.m];
    let numbers = [graph_numbers(graph), Call::Solve { lengths }.numbers()].concat();
    Request { letter: b'C', body: spaced_numbers(&numbers).into_bytes() }
}
