//! Writes a text with as many nodes, edges and bytes as a text may have: `shapes::crowd`, filled up
//! by quotes around the first field of rows.

use std::io::{self, Write};

use second::requests::rows_of;
use second::shapes;
use second::text::LONGEST_TEXT;

fn main() -> io::Result<()> {
    let text = quoted("N", &quoted("E", &rows_of(&shapes::crowd())));
    assert_eq!(text.len(), LONGEST_TEXT);
    io::stdout().write_all(text.as_bytes())
}

/// With quotes around the letter that rows begin with, in as many rows as there is room for.
fn quoted(letter: &str, text: &str) -> String {
    let room = (LONGEST_TEXT - text.len()) / 2;
    text.replacen(&format!("\n{letter},"), &format!("\n\"{letter}\","), room)
}
