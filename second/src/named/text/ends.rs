//! Where a text starts and ends, and where its rows end.

use super::{in_rows, whole_texts, Row, Whole};
use crate::named::Case;

pub fn cases() -> Vec<Case> {
    [
        whole_texts(SMALL_TEXTS),
        in_rows(STARTS),
        in_rows(ENDS),
        in_rows(ONE_BYTE_ROW_ENDS),
        in_rows(ROW_ENDS),
    ]
    .concat()
}

const SMALL_TEXTS: &[Whole] = &[
    ("empty text", b""),
    ("only a row end", b"\r\n"),
    ("only a line feed", b"\n"),
    ("only a carriage return", b"\r"),
    ("only a quote", b"\""),
    ("only five commas", b",,,,,"),
    ("one node", b"G,1,1,0,,\r\nN,0,C,,E,\r\n"),
    ("one node, no row end after it", b"G,1,1,0,,\r\nN,0,C,,E,"),
    ("first row alone", b"G,1,1,0,,\r\n"),
    ("first row alone, no row end after it", b"G,1,1,0,,"),
];

const STARTS: &[Row] = &[
    (1, "byte order mark", b"\xef\xbb\xbfG,2,8,8,,\r\n"),
    (1, "row end before it", b"\r\nG,2,8,8,,\r\n"),
    (1, "space before it", b" G,2,8,8,,\r\n"),
    (1, "left out", b""),
];

/// Row 18 is past the last.
const ENDS: &[Row] = &[
    (17, "no row end", b"E,1,7,T,,"),
    (18, "one more row end", b"\r\n"),
    (18, "letter", b"x"),
    (18, "digit", b"0"),
    (18, "line feed", b"\n"),
    (18, "carriage return", b"\r"),
    (18, "space", b" "),
    (18, "comma", b","),
    (18, "quote", b"\""),
    (18, "byte 0", b"\0"),
    (18, "byte 255", b"\xff"),
    (18, "one more edge", b"E,0,2,C,,\r\n"),
    (18, "one more node", b"N,8,R,,,\r\n"),
    (18, "one more edge, wrong", b"e,00,2,c,x\n"),
];

const ONE_BYTE_ROW_ENDS: &[Row] = &[
    (1, "line feed alone", b"G,2,8,8,,\n"),
    (2, "line feed alone", b"N,0,C,,E,0 1\n"),
    (9, "line feed alone", b"N,7,R,,,1\n"),
    (10, "line feed alone", b"E,0,2,C,,\n"),
    (17, "line feed alone", b"E,1,7,T,,\n"),
    (1, "carriage return alone", b"G,2,8,8,,\r"),
    (2, "carriage return alone", b"N,0,C,,E,0 1\r"),
    (9, "carriage return alone", b"N,7,R,,,1\r"),
    (10, "carriage return alone", b"E,0,2,C,,\r"),
    (17, "carriage return alone", b"E,1,7,T,,\r"),
];

const ROW_ENDS: &[Row] = &[
    (2, "line feed before carriage return", b"N,0,C,,E,0 1\n\r"),
    (9, "two carriage returns and a line feed", b"N,7,R,,,1\r\r\n"),
    (10, "space before its end", b"E,0,2,C,, \r\n"),
    (1, "no end", b"G,2,8,8,,"),
    (2, "no end", b"N,0,C,,E,0 1"),
    (9, "no end", b"N,7,R,,,1"),
    (10, "no end", b"E,0,2,C,,"),
    (1, "its end twice", b"G,2,8,8,,\r\n\r\n"),
    (9, "its end twice", b"N,7,R,,,1\r\n\r\n"),
    (16, "its end twice", b"E,4,6,T,,\r\n\r\n"),
    (1, "nothing but its end", b"\r\n"),
    (5, "nothing but its end", b"\r\n"),
    (17, "nothing but its end", b"\r\n"),
];
