//! The longest texts, and the lengths of the lent slices.

use crate::named::build::{lengths_but, lengths_request, text, text_and_quoted, SLICES};
use crate::named::Case;
use crate::requests::READER_LENGTHS;
use crate::text::LONGEST_TEXT;

pub fn cases() -> Vec<Case> {
    [largest_graphs(), largest_counts(), only_x(), slices()].concat()
}

fn bytes_case(name: &str, bytes: &[u8]) -> Case {
    text(format!("read: {name}, {} bytes", bytes.len()), bytes)
}

/// The largest graph. Each of the first edges takes six bytes more than the others: 1,206 such
/// rows make 65,536 bytes.
fn largest_graph(longer_rows: usize) -> Vec<u8> {
    let nodes: String = (0..1_024).map(|node| format!("N,{node},C,,E,\r\n")).collect();
    let longer = "E,1000,1000,C,,\r\n".repeat(longer_rows);
    let shorter = "E,0,0,C,,\r\n".repeat(4_096 - longer_rows);
    ["G,64,1024,4096,,\r\n", &nodes, &longer, &shorter].concat().into_bytes()
}

fn largest_graphs() -> Vec<Case> {
    let longest = largest_graph(1_206);
    let all_but = |last: usize| &longest[..longest.len() - last];
    // One byte more is not too long after this one.
    let shorter = largest_graph(1_205);
    vec![
        bytes_case("largest graph", &longest),
        bytes_case("no row end after it", all_but(2)),
        bytes_case("five fields in its last row", all_but(3)),
        bytes_case("its last row missing", all_but(11)),
        bytes_case("one more byte", &[&longest[..], b"x"].concat()),
        bytes_case("largest graph, shorter", &shorter),
        bytes_case("one more byte", &[&shorter[..], b"x"].concat()),
    ]
}

/// Each count at its limit alone, and the others small.
fn largest_counts() -> Vec<Case> {
    let nodes =
        |count: usize| -> String { (0..count).map(|node| format!("N,{node},C,,E,\r\n")).collect() };
    let counted = |k: usize, n: usize, m: usize| {
        let edges = "E,0,0,C,,\r\n".repeat(m);
        let text = format!("G,{k},{n},{m},,\r\n{}{edges}", nodes(n));
        text_and_quoted(format!("read: K {k} N {n} M {m}, every row there"), text.as_bytes())
    };
    vec![
        counted(0, 1, 0),
        counted(63, 1, 0),
        counted(64, 1, 0),
        counted(65, 1, 0),
        counted(1, 1_024, 0),
        counted(1, 1_025, 0),
        counted(1, 1, 1),
    ]
}

fn only_x() -> Vec<Case> {
    [LONGEST_TEXT, LONGEST_TEXT + 1].map(|length| bytes_case("only x", &vec![b'x'; length])).into()
}

/// A text that is accepted where the slices are right.
fn lent(name: &str, lengths: &[usize; 8]) -> Case {
    let requests = vec![lengths_request(lengths, b"G,1,1,0,,\r\nN,0,C,,E,\r\n")];
    Case { name: format!("read: {name}"), requests }
}

fn slices() -> Vec<Case> {
    let off = |slice: usize| {
        let right = READER_LENGTHS[slice];
        [0, right - 1, right + 1].map(|length| {
            lent(&format!("{} of {length}", SLICES[slice]), &lengths_but(slice, length))
        })
    };
    let mut cases: Vec<Case> = (0..SLICES.len()).flat_map(off).collect();
    cases.push(lent("every slice of 0", &[0; 8]));
    cases.push(lent("every slice as it has to be", &READER_LENGTHS));
    cases
}
