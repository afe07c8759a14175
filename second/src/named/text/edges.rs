//! The edge rows, each field in turn, and the rules of edges.

use super::{in_rows, Row};
use crate::named::Case;

pub fn cases() -> Vec<Case> {
    [in_rows(LETTERS), in_rows(FIELDS), in_rows(RULES)].concat()
}

const LETTERS: &[Row] = &[
    (10, "lower case letter", b"e,0,2,C,,\r\n"),
    (17, "letter of a node", b"N,1,7,T,,\r\n"),
    (10, "letter of the first row", b"G,0,2,C,,\r\n"),
    (17, "empty letter", b",1,7,T,,\r\n"),
    (10, "letter left out", b"0,2,C,,,\r\n"),
    (17, "letter twice", b"EE,1,7,T,,\r\n"),
    (10, "five fields", b"E,0,2,C,\r\n"),
    (10, "seven fields", b"E,0,2,C,,,\r\n"),
    (17, "five fields", b"E,1,7,T,"),
    (17, "seven fields", b"E,1,7,T,,,\r\n"),
    (10, "left out", b""),
    (17, "left out", b""),
    (10, "node for an edge", b"N,8,R,,,\r\n"),
];

const FIELDS: &[Row] = &[
    (10, "kind in lower case", b"E,0,2,c,,\r\n"),
    (17, "kind in lower case", b"E,1,7,t,,\r\n"),
    (10, "empty kind", b"E,0,2,,,\r\n"),
    (17, "unknown kind", b"E,1,7,X,,\r\n"),
    (10, "kind of a return", b"E,0,2,R,,\r\n"),
    (17, "kind of a check", b"E,1,7,K,,\r\n"),
    (10, "kind as a number", b"E,0,2,0,,\r\n"),
    (17, "both kinds", b"E,1,7,CT,,\r\n"),
    (10, "fifth field not empty", b"E,0,2,C,0,\r\n"),
    (10, "sixth field not empty", b"E,0,2,C,,0\r\n"),
    (17, "fifth field not empty", b"E,1,7,T,0,\r\n"),
    (17, "sixth field not empty", b"E,1,7,T,,0\r\n"),
    (17, "space for the fifth field", b"E,1,7,T, ,\r\n"),
    (17, "space for the sixth field", b"E,1,7,T,, \r\n"),
    (10, "empty from", b"E,,2,C,,\r\n"),
    (17, "empty to", b"E,1,,T,,\r\n"),
];

const RULES: &[Row] = &[
    (10, "to itself", b"E,0,0,C,,\r\n"),
    (10, "to itself by a transfer", b"E,0,0,T,,\r\n"),
    (11, "the edge before it again", b"E,0,2,C,,\r\n"),
    (10, "call that leaves a check", b"E,2,3,C,,\r\n"),
    (17, "call that leaves a return", b"E,3,6,C,,\r\n"),
    (17, "transfer that leaves a return", b"E,3,6,T,,\r\n"),
    (17, "transfer to other grants", b"E,1,6,T,,\r\n"),
    (13, "transfer to other grants", b"E,1,4,T,,\r\n"),
];
