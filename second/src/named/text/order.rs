//! Two things wrong at once: 1, then 12, then 11, then 2 to 4.

use super::{whole_texts, Whole};
use crate::named::build::{lengths_but, lengths_request, text};
use crate::named::Case;

pub fn cases() -> Vec<Case> {
    [whole_texts(ROWS_FIRST), whole_texts(GRAPH_ORDER), all_at_once()].concat()
}

/// What is wrong in a row comes before what is wrong in the graph.
const ROWS_FIRST: &[Whole] = &[
    (
        "bad node, wrong last row",
        b"G,1,2,1,,\r\n\
          N,0,C,,E,5\r\n\
          N,1,R,,,\r\n\
          E,0,1,C,,x\r\n",
    ),
    (
        "bad node, missing last row",
        b"G,1,2,1,,\r\n\
          N,0,C,,E,5\r\n\
          N,1,R,,,\r\n",
    ),
    (
        "bad node, extra row",
        b"G,1,1,0,,\r\n\
          N,0,C,,E,64\r\n\
          x",
    ),
    (
        "bad edge, wrong next row",
        b"G,1,1,2,,\r\n\
          N,0,C,,E,\r\n\
          E,0,1,C,,\r\n\
          E,0,0,C\r\n",
    ),
    (
        "no entry, wrong last row",
        b"G,1,1,1,,\r\n\
          N,0,C,,,\r\n\
          E,0,0,X,,\r\n",
    ),
    ("wrong first row, wrong node", b"G,0,1,0,,\r\nn,0,C,,E,\r\n"),
    (
        "two wrong rows",
        b"G,1,2,1,,\r\n\
          N,0,C,,E,\r\n\
          N,1,r,,,\r\n\
          E,0,0,X,,\r\n",
    ),
];

const GRAPH_ORDER: &[Whole] = &[
    (
        "bad node, bad edge",
        b"G,1,2,1,,\r\n\
          N,0,C,,E,\r\n\
          N,1,R,,,5\r\n\
          E,0,9,C,,\r\n",
    ),
    (
        "bad node, no entry",
        b"G,1,2,0,,\r\n\
          N,0,C,,,\r\n\
          N,1,R,,,1\r\n",
    ),
    (
        "bad edge, no entry",
        b"G,1,2,2,,\r\n\
          N,0,C,,,\r\n\
          N,1,R,,,\r\n\
          E,0,1,C,,\r\n\
          E,1,0,C,,\r\n",
    ),
    (
        "no entry",
        b"G,1,2,1,,\r\n\
          N,0,C,,P,\r\n\
          N,1,R,,,\r\n\
          E,0,1,C,,\r\n",
    ),
    (
        "two bad nodes",
        b"G,2,2,0,,\r\n\
          N,0,K,2,E,\r\n\
          N,1,C,,,64\r\n",
    ),
    (
        "two bad nodes, other way round",
        b"G,2,2,0,,\r\n\
          N,0,C,,E,64\r\n\
          N,1,K,2,,\r\n",
    ),
    (
        "the only entry grants 64",
        b"G,2,2,0,,\r\n\
          N,0,C,,,\r\n\
          N,1,C,,E,64\r\n",
    ),
    (
        "two bad edges",
        b"G,1,1,2,,\r\n\
          N,0,C,,E,\r\n\
          E,0,1,T,,\r\n\
          E,1,0,C,,\r\n",
    ),
];

/// A bad node, an extra row and a text too long, taken away one after the other.
fn all_at_once() -> Vec<Case> {
    let bad_node = b"G,1,1,0,,\r\nN,0,C,,E,64\r\n";
    let with_more = |count: usize| [&bad_node[..], &vec![b'x'; count]].concat();
    let too_long = with_more(65_537 - bad_node.len());
    let request = lengths_request(&lengths_but(0, 1_023), &too_long);
    vec![
        Case { name: "read, 1 before 12: a short slice".into(), requests: vec![request] },
        text("read, 12 before 11: 65537 bytes, an extra row, a bad node", &too_long),
        text("read, 11 before 2: an extra row, a bad node", &with_more(9)),
        text("read, 2 alone: a bad node", bad_node),
    ]
}
