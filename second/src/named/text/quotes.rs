//! Quotes, right and wrong.

use super::{in_rows, whole_texts, Row, Whole};
use crate::named::Case;

pub fn cases() -> Vec<Case> {
    [
        in_rows(SOME_QUOTED),
        whole_texts(QUOTED_TEXTS),
        in_rows(DOUBLED),
        in_rows(MISPLACED),
        in_rows(BYTES_AFTER),
        in_rows(UNCLOSED),
        in_rows(SEPARATORS_INSIDE),
    ]
    .concat()
}

const SOME_QUOTED: &[Row] = &[
    (1, "quoted letter", b"\"G\",2,8,8,,\r\n"),
    (1, "quoted number", b"G,\"2\",8,8,,\r\n"),
    (1, "quoted empty fields", b"G,2,8,8,\"\",\"\"\r\n"),
    (2, "quoted own number and kind", b"N,\"0\",\"C\",,E,0 1\r\n"),
    (2, "quoted empty check permission", b"N,0,C,\"\",E,0 1\r\n"),
    (2, "quoted mark", b"N,0,C,,\"E\",0 1\r\n"),
    (2, "quoted grants", b"N,0,C,,E,\"0 1\"\r\n"),
    (4, "quoted check permission", b"N,2,K,\"0\",,0 1\r\n"),
    (4, "quoted empty marks", b"N,2,K,0,\"\",0 1\r\n"),
    (10, "quoted ends and kind", b"E,\"0\",\"2\",\"C\",,\r\n"),
    (17, "all quoted, no row end", b"\"E\",\"1\",\"7\",\"T\",\"\",\"\""),
    (1, "quoted letter in lower case", b"\"g\",2,8,8,,\r\n"),
    (1, "quoted number with a needless zero", b"G,\"02\",8,8,,\r\n"),
    (2, "quoted space for an empty field", b"N,0,C,\" \",E,0 1\r\n"),
];

const QUOTED_TEXTS: &[Whole] =
    &[("one node, quoted empty grants", b"G,1,1,0,,\r\nN,0,C,,E,\"\"\r\n")];

const DOUBLED: &[Row] = &[
    (1, "letter and a doubled quote", b"\"G\"\"\",2,8,8,,\r\n"),
    (1, "number and a doubled quote", b"G,\"2\"\"\",8,8,,\r\n"),
    (2, "grants with a doubled quote", b"N,0,C,,E,\"0\"\" 1\"\r\n"),
    (9, "grants that are a doubled quote", b"N,7,R,,,\"\"\"\"\r\n"),
    (10, "doubled quote before a number", b"E,\"\"\"0\",2,C,,\r\n"),
    (17, "doubled quote for an empty field", b"E,1,7,T,,\"\"\"\"\r\n"),
    (17, "three quotes", b"E,1,7,T,,\"\"\""),
];

const MISPLACED: &[Row] = &[
    (1, "quote after a letter", b"G\",2,8,8,,\r\n"),
    (1, "quotes after a number", b"G,2\"\",8,8,,\r\n"),
    (2, "quote in grants", b"N,0,C,,E,0\" 1\r\n"),
    (2, "quoted member of grants", b"N,0,C,,E,0 \"1\"\r\n"),
    (9, "quote after grants", b"N,7,R,,,1\"\r\n"),
    (10, "quote after a number", b"E,0\",2,C,,\r\n"),
    (17, "quote after a letter", b"E,1,7,T\",,\r\n"),
    (2, "space before a quoted field", b"N,0,C,, \"E\",0 1\r\n"),
];

const BYTES_AFTER: &[Row] = &[
    (1, "digit after a closing quote", b"G,\"2\"0,8,8,,\r\n"),
    (2, "letter after a closing quote", b"N,0,C,,\"E\"x,0 1\r\n"),
    (9, "space after a closing quote", b"N,7,R,,,\"1\" \r\n"),
    (10, "space after a quoted letter", b"\"E\" ,0,2,C,,\r\n"),
    (17, "letter after quoted nothing", b"E,1,7,T,,\"\"x\r\n"),
    (9, "line feed after a closing quote", b"N,7,R,,,\"1\"\n"),
    (17, "carriage return after a closing quote", b"E,1,7,T,,\"\"\r"),
    (17, "byte 0 after a closing quote", b"E,1,7,T,,\"\"\0"),
];

const UNCLOSED: &[Row] = &[
    (1, "unclosed quote before the letter", b"\"G,2,8,8,,\r\n"),
    (1, "unclosed quote in the last field", b"G,2,8,8,,\"\r\n"),
    (2, "unclosed quote before grants", b"N,0,C,,E,\"0 1\r\n"),
    (9, "unclosed quote before grants", b"N,7,R,,,\"1\r\n"),
    (10, "unclosed quote before a number", b"E,\"0,2,C,,\r\n"),
    (17, "unclosed quote in the last field", b"E,1,7,T,,\"\r\n"),
    (17, "unclosed quote at the very end", b"E,1,7,T,,\""),
    (2, "quote that the next row closes", b"N,0,C,,E,\"0 1\r\nN,1,C,,E,1\"\r\n"),
];

const SEPARATORS_INSIDE: &[Row] = &[
    (1, "comma in quotes", b"\"G,2\",8,8,,,\r\n"),
    (2, "comma in quoted grants", b"N,0,C,,E,\"0,1\"\r\n"),
    (10, "comma in quotes", b"E,\"0,2\",C,,,\r\n"),
    (17, "comma in quotes", b"E,1,7,T,\",\",\r\n"),
    (1, "row end in quotes", b"G,2,8,8,,\"\r\n\"\r\n"),
    (2, "row end in quoted grants", b"N,0,C,,E,\"0\r\n1\"\r\n"),
    (9, "row end in quoted marks", b"N,7,R,,\"\r\n\",1\r\n"),
    (10, "row end in a quoted number", b"E,\"0\r\n\",2,C,,\r\n"),
    (17, "row end in quotes", b"E,1,7,T,,\"\r\n\"\r\n"),
    (2, "line feed in quoted grants", b"N,0,C,,E,\"0\n1\"\r\n"),
    (1, "quoted row end for a row end", b"G,2,8,8,,\"\r\n\""),
];
