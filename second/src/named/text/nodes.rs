//! The first row and the node rows, each field in turn.

use super::{in_rows, whole_texts, Row, Whole};
use crate::named::Case;

pub fn cases() -> Vec<Case> {
    [
        in_rows(FIRST_ROW),
        in_rows(LETTERS),
        in_rows(OWN_NUMBERS),
        in_rows(KINDS),
        in_rows(CHECK_PERMISSIONS),
        in_rows(MARKS),
        in_rows(GRANTS_BELOW_K),
        in_rows(GRANTS_PAST_K),
        in_rows(GRANTS_OUT_OF_RANGE),
        whole_texts(PERMISSIONS_AT_K),
    ]
    .concat()
}

const FIRST_ROW: &[Row] = &[
    (1, "lower case letter", b"g,2,8,8,,\r\n"),
    (1, "letter of a node", b"N,2,8,8,,\r\n"),
    (1, "empty letter", b",2,8,8,,\r\n"),
    (1, "letter left out", b"2,8,8,,,\r\n"),
    (1, "letter twice", b"GG,2,8,8,,\r\n"),
    (1, "letter and a space", b"G ,2,8,8,,\r\n"),
    (1, "five fields", b"G,2,8,8,\r\n"),
    (1, "seven fields", b"G,2,8,8,,,\r\n"),
    (1, "one field", b"G\r\n"),
    (1, "fifth field not empty", b"G,2,8,8,0,\r\n"),
    (1, "sixth field not empty", b"G,2,8,8,,0\r\n"),
    (1, "space for the fifth field", b"G,2,8,8, ,\r\n"),
    (1, "space for the sixth field", b"G,2,8,8,, \r\n"),
    (1, "empty K", b"G,,8,8,,\r\n"),
    (1, "empty N", b"G,2,,8,,\r\n"),
    (1, "empty M", b"G,2,8,,,\r\n"),
];

const LETTERS: &[Row] = &[
    (2, "lower case letter", b"n,0,C,,E,0 1\r\n"),
    (2, "letter of an edge", b"E,0,C,,E,0 1\r\n"),
    (9, "letter of the first row", b"G,7,R,,,1\r\n"),
    (5, "empty letter", b",3,R,,,0 1\r\n"),
    (2, "letter left out", b"0,C,,E,0 1,\r\n"),
    (9, "letter twice", b"NN,7,R,,,1\r\n"),
    (2, "five fields", b"N,0,C,,E\r\n"),
    (2, "seven fields", b"N,0,C,,E,0 1,\r\n"),
    (9, "five fields", b"N,7,R,,1\r\n"),
    (9, "seven fields", b"N,7,R,,,,1\r\n"),
    (2, "left out", b""),
    (9, "left out", b""),
    (3, "twice", b"N,1,C,,E,1\r\nN,1,C,,E,1\r\n"),
    (9, "edge for a node", b"E,0,2,C,,\r\n"),
];

const OWN_NUMBERS: &[Row] = &[
    (2, "own number one more", b"N,1,C,,E,0 1\r\n"),
    (9, "own number one more", b"N,8,R,,,1\r\n"),
    (9, "own number one less", b"N,6,R,,,1\r\n"),
    (9, "own number 0 again", b"N,0,R,,,1\r\n"),
    (2, "own number empty", b"N,,C,,E,0 1\r\n"),
    (3, "own number 9999", b"N,9999,C,,E,1\r\n"),
    (3, "own number 2 to the 16 and 1", b"N,65537,C,,E,1\r\n"),
    (9, "own number 2 to the 64 and 7", b"N,18446744073709551623,R,,,1\r\n"),
];

const KINDS: &[Row] = &[
    (2, "kind in lower case", b"N,0,c,,E,0 1\r\n"),
    (4, "kind in lower case", b"N,2,k,0,,0 1\r\n"),
    (9, "kind in lower case", b"N,7,r,,,1\r\n"),
    (2, "empty kind", b"N,0,,,E,0 1\r\n"),
    (9, "unknown kind", b"N,7,X,,,1\r\n"),
    (9, "kind of an edge", b"N,7,T,,,1\r\n"),
    (2, "kind as a number", b"N,0,0,,E,0 1\r\n"),
    (2, "kind twice", b"N,0,CC,,E,0 1\r\n"),
    (2, "kind and a space", b"N,0,C ,,E,0 1\r\n"),
];

const CHECK_PERMISSIONS: &[Row] = &[
    (2, "permission on a call", b"N,0,C,0,E,0 1\r\n"),
    (2, "permission out of range on a call", b"N,0,C,2,E,0 1\r\n"),
    (9, "permission on a return", b"N,7,R,0,,1\r\n"),
    (2, "space for no permission on a call", b"N,0,C, ,E,0 1\r\n"),
    (4, "no permission on a check", b"N,2,K,,,0 1\r\n"),
    (7, "no permission on a check", b"N,5,K,,,0 1\r\n"),
    (4, "two permissions on a check", b"N,2,K,0 1,,0 1\r\n"),
    (4, "permission 1 on a check", b"N,2,K,1,,0 1\r\n"),
    (4, "permission K on a check", b"N,2,K,2,,0 1\r\n"),
    (7, "permission K on a check", b"N,5,K,2,,0 1\r\n"),
    (9, "check that it is not granted", b"N,7,K,0,,1\r\n"),
];

const MARKS: &[Row] = &[
    (2, "no marks", b"N,0,C,,,0 1\r\n"),
    (3, "marks P", b"N,1,C,,P,1\r\n"),
    (2, "marks PE", b"N,0,C,,PE,0 1\r\n"),
    (9, "marks PE on a return", b"N,7,R,,PE,1\r\n"),
    (2, "marks EP", b"N,0,C,,EP,0 1\r\n"),
    (9, "marks EP", b"N,7,R,,EP,1\r\n"),
    (2, "marks PP", b"N,0,C,,PP,0 1\r\n"),
    (2, "marks EE", b"N,0,C,,EE,0 1\r\n"),
    (2, "marks PEP", b"N,0,C,,PEP,0 1\r\n"),
    (2, "marks X", b"N,0,C,,X,0 1\r\n"),
    (9, "marks PX", b"N,7,R,,PX,1\r\n"),
    (2, "marks in lower case", b"N,0,C,,e,0 1\r\n"),
    (9, "marks in lower case", b"N,7,R,,pe,1\r\n"),
    (2, "space between marks", b"N,0,C,,P E,0 1\r\n"),
    (9, "space for no marks", b"N,7,R,, ,1\r\n"),
];

const GRANTS_BELOW_K: &[Row] = &[
    (2, "grants descending", b"N,0,C,,E,1 0\r\n"),
    (2, "grants repeated", b"N,0,C,,E,1 1\r\n"),
    (2, "grants with two spaces", b"N,0,C,,E,0  1\r\n"),
    (2, "grants with a space before", b"N,0,C,,E, 0 1\r\n"),
    (2, "grants with a space after", b"N,0,C,,E,0 1 \r\n"),
    (2, "grants of one space", b"N,0,C,,E, \r\n"),
    (2, "grants with a tab", b"N,0,C,,E,0\t1\r\n"),
    (2, "grants with a comma", b"N,0,C,,E,0,1\r\n"),
    (9, "grants descending", b"N,7,R,,,1 0\r\n"),
    (9, "grants repeated", b"N,7,R,,,1 1\r\n"),
    (9, "grants with two spaces", b"N,7,R,,,0  1\r\n"),
    (9, "grants with a space before", b"N,7,R,,, 1\r\n"),
    (9, "grants with a space after", b"N,7,R,,,1 \r\n"),
    (9, "grants of one space", b"N,7,R,,, \r\n"),
];

/// Wrongly listed, so 11 although a member is out of range.
const GRANTS_PAST_K: &[Row] = &[
    (2, "descending past K", b"N,0,C,,E,3 2\r\n"),
    (2, "repeated past K", b"N,0,C,,E,2 2\r\n"),
    (2, "two spaces past K", b"N,0,C,,E,0  2\r\n"),
    (2, "space before past K", b"N,0,C,,E, 2\r\n"),
    (2, "space after past K", b"N,0,C,,E,2 \r\n"),
    (9, "descending past 64", b"N,7,R,,,65 64\r\n"),
    (9, "repeated past 64", b"N,7,R,,,64 64\r\n"),
    (9, "two spaces past 64", b"N,7,R,,,1  64\r\n"),
    (9, "space before past 64", b"N,7,R,,, 64\r\n"),
    (9, "space after past 64", b"N,7,R,,,64 \r\n"),
    (9, "down from past 64", b"N,7,R,,,64 1\r\n"),
    (9, "letter past 64", b"N,7,R,,,64 x\r\n"),
    (2, "five digits past K", b"N,0,C,,E,2 10000\r\n"),
    (9, "five digits past 64", b"N,7,R,,,64 10000\r\n"),
];

const GRANTS_OUT_OF_RANGE: &[Row] = &[
    (2, "grants K after others", b"N,0,C,,E,0 1 2\r\n"),
    (2, "grants 64 after others", b"N,0,C,,E,0 1 64\r\n"),
    (9, "grants 9999 after others", b"N,7,R,,,1 9999\r\n"),
    (9, "grants up to 9999", b"N,7,R,,,1 2 63 64 65 127 128 9999\r\n"),
];

const PERMISSIONS_AT_K: &[Whole] = &[
    ("K 64, grants 0 and 63", b"G,64,1,0,,\r\nN,0,C,,E,0 63\r\n"),
    ("K 64, grants 64", b"G,64,1,0,,\r\nN,0,C,,E,64\r\n"),
    ("K 64, grants 63 and 64", b"G,64,1,0,,\r\nN,0,C,,E,63 64\r\n"),
    ("K 64, check of 63", b"G,64,1,0,,\r\nN,0,K,63,E,\r\n"),
    ("K 64, check of 64", b"G,64,1,0,,\r\nN,0,K,64,E,\r\n"),
    ("K 63, grants 63", b"G,63,1,0,,\r\nN,0,C,,E,63\r\n"),
    ("K 1, grants 0", b"G,1,1,0,,\r\nN,0,C,,E,0\r\n"),
    ("K 1, grants 1", b"G,1,1,0,,\r\nN,0,C,,E,1\r\n"),
];
