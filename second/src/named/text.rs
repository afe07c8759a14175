//! The reader, on the worked gateway's text with other bytes in place of one of its rows, and on
//! small texts. Rows 2 to 9 of the gateway are its nodes, rows 10 to 17 its edges.

mod edges;
mod ends;
mod limits;
mod nodes;
mod numbers;
mod order;
mod quotes;

use super::build::text_and_quoted;
use super::Case;
use crate::build::{with_crlf, GATEWAY_ROWS};

/// A row's number, what is put in its place, and the bytes; the row's end goes as well.
type Row = (usize, &'static str, &'static [u8]);

/// A text that is not the gateway's.
type Whole = (&'static str, &'static [u8]);

pub fn cases() -> Vec<Case> {
    [
        worked(),
        ends::cases(),
        quotes::cases(),
        numbers::cases(),
        nodes::cases(),
        edges::cases(),
        order::cases(),
        limits::cases(),
    ]
    .concat()
}

fn worked() -> Vec<Case> {
    let everything: Vec<String> = (0..64).map(|permission| permission.to_string()).collect();
    let all_granted = format!("G,64,1,0,,\r\nN,0,K,63,PE,{}\r\n", everything.join(" "));
    vec![
        text_and_quoted("read: worked gateway", with_crlf(GATEWAY_ROWS).as_bytes()),
        text_and_quoted("read: K 64, all granted", all_granted.as_bytes()),
    ]
}

fn in_rows(rows: &[Row]) -> Vec<Case> {
    let one = |(row, name, bytes): &Row| {
        text_and_quoted(format!("read: row {row}, {name}"), &gateway_with_row(*row, bytes))
    };
    rows.iter().map(one).collect()
}

fn whole_texts(texts: &[Whole]) -> Vec<Case> {
    texts.iter().map(|(name, text)| text_and_quoted(format!("read: {name}"), text)).collect()
}

/// Row 18 is past the last.
fn gateway_with_row(row: usize, bytes: &[u8]) -> Vec<u8> {
    let text = with_crlf(GATEWAY_ROWS);
    let mut rows: Vec<&[u8]> = text.split_inclusive('\n').map(str::as_bytes).collect();
    rows.resize(rows.len().max(row), b"");
    rows[row - 1] = bytes;
    rows.concat()
}
