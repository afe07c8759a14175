//! Every row of the table of texts read closely, with its place.

use crate::build::set;
use crate::graph::{Graph, Refusal};
use crate::rows::result_of;
use crate::text::read_graph;

const ROWS: [&str; 6] =
    ["G,3,3,2,,", "N,0,C,,E,0 1", "N,1,K,1,P,0 1", "N,2,R,,,0 1", "E,0,1,C,,", "E,1,2,T,,"];

const HEADER: usize = 1;
const CALL_NODE: usize = 2;
const CHECK_NODE: usize = 3;
const CALL_EDGE: usize = 5;
const TRANSFER_EDGE: usize = 6;
const EXTRA_ROW: usize = 7;

fn sound_text() -> String {
    ROWS.map(|row| format!("{row}\r\n")).concat()
}

fn sound_graph() -> Graph {
    read_graph(sound_text().as_bytes()).unwrap()
}

/// The sound text with one row, numbered from 1, put in place of its own.
fn text_with(number: usize, row: &str) -> String {
    let mut rows = ROWS;
    rows[number - 1] = row;
    rows.map(|row| format!("{row}\r\n")).concat()
}

fn read(text: &str) -> Result<Graph, Refusal> {
    read_graph(text.as_bytes())
}

fn refused(number: u8, place: usize) -> Result<Graph, Refusal> {
    Err(Refusal { number, place })
}

fn assert_all_11(row_number: usize, rows: &[&str]) {
    for row in rows {
        assert_eq!(read(&text_with(row_number, row)), refused(11, row_number), "{row:?}");
    }
}

#[test]
fn the_sound_text_is_read() {
    let graph = sound_graph();
    assert_eq!((graph.k, graph.n, graph.m), (3, 3, 2));
    assert_eq!(graph.checks, [0, 1, 0]);
    assert_eq!(graph.grants, [3, 3, 3]);
}

#[test]
fn empty_or_only_a_row_end_or_a_byte_order_mark() {
    assert_eq!(read(""), refused(11, 1));
    assert_eq!(read("\r\n"), refused(11, 1));
    assert_eq!(read(&format!("\r\n{}", sound_text())), refused(11, 1));
    assert_eq!(read(&format!("\u{feff}{}", sound_text())), refused(11, 1));
    assert_eq!(read("\u{feff}"), refused(11, 1));
}

#[test]
fn the_last_row_end_is_optional() {
    assert_eq!(read(sound_text().strip_suffix("\r\n").unwrap()), Ok(sound_graph()));
    let quoted = text_with(TRANSFER_EDGE, "E,1,2,T,,\"\"");
    assert_eq!(read(quoted.strip_suffix("\r\n").unwrap()), Ok(sound_graph()));
}

#[test]
fn anything_after_the_last_row_end_is_an_extra_row() {
    for extra in ["\r\n", "\r\n\r\n", "x", " ", "\"", "\n", "\r", ",", "E,0,1,C,,\r\n", "\0"] {
        assert_eq!(read(&(sound_text() + extra)), refused(11, EXTRA_ROW), "{extra:?}");
    }
}

#[test]
fn an_extra_row_comes_before_node_and_edge_rules() {
    let text = text_with(CALL_NODE, "N,0,C,,E,99") + "x";
    assert_eq!(read(&text), refused(11, EXTRA_ROW));
}

#[test]
fn missing_rows() {
    for rows in 0..ROWS.len() {
        let text: String = ROWS[..rows].iter().map(|row| format!("{row}\r\n")).collect();
        assert_eq!(read(&text), refused(11, rows + 1));
        let unended = text.strip_suffix("\r\n").unwrap_or("");
        assert_eq!(read(unended), refused(11, rows + 1));
    }
}

#[test]
fn lf_or_cr_alone_is_no_row_end() {
    for row_end in ["\n", "\r", "\n\r", "\r\r\n"] {
        for number in 1..=ROWS.len() {
            let rows: Vec<String> = ROWS
                .iter()
                .enumerate()
                .map(|(i, row)| format!("{row}{}", if i + 1 == number { row_end } else { "\r\n" }))
                .collect();
            assert_eq!(read(&rows.concat()), refused(11, number), "{row_end:?} {number}");
        }
    }
}

#[test]
fn quoted_fields_are_read_as_their_inside() {
    let quoted: String = ROWS
        .iter()
        .map(|row| {
            let fields: Vec<String> = row.split(',').map(|field| format!("\"{field}\"")).collect();
            fields.join(",") + "\r\n"
        })
        .collect();
    assert_eq!(read(&quoted), Ok(sound_graph()));
    assert_eq!(read(quoted.strip_suffix("\r\n").unwrap()), Ok(sound_graph()));
    assert_eq!(read(&text_with(HEADER, "G,\"3\",3,2,\"\",")), Ok(sound_graph()));
}

#[test]
fn wrong_quotes() {
    assert_all_11(
        CALL_NODE,
        &[
            "\"N\"\"\",0,C,,E,0 1",
            "N,0,C,\"\"\"\",E,0 1",
            "N,0,C,\"\"\"\"\"\",E,0 1",
            "N\",0,C,,E,0 1",
            "N,0,C,,E,0\" 1",
            "N,0,C,,E, \"0 1\"",
            "\"N\"x,0,C,,E,0 1",
            "N,0,C,,\"E\" ,0 1",
            "N,0,C,,E,\"0 1\"\r",
            "N,0,C,,E,\"0 1\"\n",
            "N,0,C,,E,\"0 1",
            "\"N,0,C,,E,0 1",
            "N,0,C,,\",E,0 1",
        ],
    );
}

#[test]
fn an_unclosed_quote_at_the_very_end() {
    assert_eq!(read(&(sound_text().trim_end().to_string() + "\"")), refused(11, TRANSFER_EDGE));
    assert_eq!(read("\""), refused(11, 1));
}

#[test]
fn commas_and_row_ends_inside_quotes_are_part_of_one_field() {
    assert_all_11(CALL_NODE, &["N,0,C,\",\",E,0 1", "N,0,C,,E,\"0,1\"", "\"N,0\",C,,E,0 1"]);
    assert_all_11(CALL_NODE, &["N,0,C,\"\r\n\",E,0 1", "N,0,C,,E,\"0 1\r\n\""]);
    let header_over_two_lines = text_with(HEADER, "G,3,3,2,\"\r\n\",");
    assert_eq!(read(&header_over_two_lines), refused(11, 1));
}

#[test]
fn rows_of_other_than_six_fields() {
    assert_all_11(HEADER, &["G,3,3,2,", "G,3,3,2,,,", "", "G"]);
    assert_all_11(CALL_NODE, &["N,0,C,,E", "N,0,C,,E,0 1,", ""]);
    assert_all_11(CALL_EDGE, &["E,0,1,C,", "E,0,1,C,,,", ""]);
}

#[test]
fn numbers_with_a_needless_zero_a_sign_or_a_space() {
    assert_all_11(HEADER, &["G,03,3,2,,", "G,+3,3,2,,", "G,3, 3,2,,", "G,3,3,2 ,,", "G,3,3,-0,,"]);
    assert_all_11(CALL_NODE, &["N,00,C,,E,0 1", "N,+0,C,,E,0 1", "N,0,C,,E,00 1", "N,0,C,,E,0 +1"]);
    assert_all_11(CHECK_NODE, &["N,1,K,01,P,0 1", "N,1,K,-1,P,0 1", "N,1,K, 1,P,0 1"]);
    assert_all_11(CALL_EDGE, &["E,00,1,C,,", "E,0,01,C,,", "E,0,1 ,C,,", "E,,1,C,,", "E,0,,C,,"]);
}

#[test]
fn counts_out_of_range_however_long() {
    assert_all_11(
        HEADER,
        &[
            "G,0,3,2,,",
            "G,65,3,2,,",
            "G,3,0,2,,",
            "G,3,1025,2,,",
            "G,3,3,4097,,",
            "G,,3,2,,",
            "G,18446744073709551619,3,2,,",
            "G,3,340282366920938463463374607431768211459,2,,",
            "G,3,3,99999999999999999999999999999999999999999999999999,,",
        ],
    );
}

#[test]
fn header_fields_not_described() {
    assert_all_11(HEADER, &["g,3,3,2,,", "N,3,3,2,,", ",3,3,2,,", "G,3,3,2,x,", "G,3,3,2,,0"]);
}

#[test]
fn a_check_permission_exactly_on_checks() {
    assert_all_11(CALL_NODE, &["N,0,C,0,E,0 1", "N,0,R,1,E,0 1"]);
    assert_all_11(CHECK_NODE, &["N,1,K,,P,0 1"]);
}

#[test]
fn node_fields_not_described() {
    assert_all_11(
        CALL_NODE,
        &[
            "n,0,C,,E,0 1",
            "E,0,C,,E,0 1",
            "N,0,c,,E,0 1",
            "N,0,T,,E,0 1",
            "N,0,,,E,0 1",
            "N,0,C,,EP,0 1",
            "N,0,C,,PP,0 1",
            "N,0,C,,e,0 1",
            "N,0,C,,E,x",
            "N,0,C,,E,\t",
        ],
    );
}

#[test]
fn a_row_number_out_of_order() {
    assert_all_11(CALL_NODE, &["N,1,C,,E,0 1", "N,,C,,E,0 1", "N,18446744073709551616,C,,E,0 1"]);
    assert_all_11(CHECK_NODE, &["N,0,K,1,P,0 1", "N,2,K,1,P,0 1"]);
}

#[test]
fn all_marks() {
    let marks_of = |marks: &str| {
        let graph = read(&text_with(CALL_NODE, &format!("N,0,C,,{marks},0 1"))).unwrap();
        (graph.privileged[0], graph.entries[0])
    };
    assert_eq!(marks_of("E"), (0, 1));
    assert_eq!(marks_of("PE"), (1, 1));
    assert_eq!(read(&text_with(CALL_NODE, "N,0,C,,P,0 1")), refused(4, 0));
    assert_eq!(read(&text_with(CALL_NODE, "N,0,C,,,0 1")), refused(4, 0));
}

#[test]
fn grants_wrongly_listed() {
    assert_all_11(
        CALL_NODE,
        &[
            "N,0,C,,E,1 0",
            "N,0,C,,E,0 0",
            "N,0,C,,E,0  1",
            "N,0,C,,E, 0 1",
            "N,0,C,,E,0 1 ",
            "N,0,C,,E, ",
            "N,0,C,,E,0\t1",
            "N,0,C,,E,99 98",
            "N,0,C,,E,99 99",
            "N,0,C,,E,99  100",
            "N,0,C,,E,99 ",
        ],
    );
}

#[test]
fn empty_grants() {
    let graph = read("G,2,1,0,,\r\nN,0,R,,E,\r\n").unwrap();
    assert_eq!(graph.grants, [set(&[])]);
}

#[test]
fn a_permission_not_below_k_is_2_at_its_node() {
    for row in ["N,1,K,3,P,0 1", "N,1,K,64,P,0 1", "N,1,K,9999,P,0 1"] {
        assert_eq!(read(&text_with(CHECK_NODE, row)), refused(2, 1), "{row}");
    }
    for grants in ["3", "0 1 3", "63", "64", "65", "64 65", "128", "0 1 9999"] {
        let row = format!("N,1,K,1,P,{grants}");
        assert_eq!(read(&text_with(CHECK_NODE, &row)), refused(2, 1), "{row}");
    }
}

#[test]
fn the_64th_permission_is_2_even_when_k_is_64() {
    assert_eq!(read("G,64,1,0,,\r\nN,0,K,64,E,\r\n"), refused(2, 0));
    assert_eq!(read("G,64,1,0,,\r\nN,0,C,,E,64\r\n"), refused(2, 0));
    assert_eq!(read("G,64,1,0,,\r\nN,0,K,63,E,63\r\n").unwrap().grants, [set(&[63])]);
}

#[test]
fn an_edge_end_not_below_n_is_3_at_its_edge() {
    for row in ["E,3,2,T,,", "E,1,3,T,,", "E,1,1024,T,,", "E,9999,9999,T,,"] {
        assert_eq!(read(&text_with(TRANSFER_EDGE, row)), refused(3, 1), "{row}");
    }
    assert_eq!(read(&text_with(CALL_EDGE, "E,0,3,C,,")), refused(3, 0));
}

#[test]
fn other_edge_rules_in_a_text() {
    assert_eq!(read(&text_with(TRANSFER_EDGE, "E,1,2,C,,")), refused(3, 1));
    assert_eq!(read(&text_with(TRANSFER_EDGE, "E,2,1,T,,")), refused(3, 1));
    assert_eq!(read(&text_with(CHECK_NODE, "N,1,K,1,P,1")), refused(3, 1));
}

#[test]
fn five_digits_or_more() {
    assert_all_11(CHECK_NODE, &["N,1,K,10000,P,0 1", "N,1,K,65536,P,0 1"]);
    assert_all_11(CHECK_NODE, &["N,1,K,1,P,0 10000", "N,1,K,1,P,18446744073709551617"]);
    assert_all_11(TRANSFER_EDGE, &["E,10000,2,T,,", "E,1,65538,T,,", "E,1,10000,T,,"]);
}

#[test]
fn edge_fields_not_described() {
    assert_all_11(
        CALL_EDGE,
        &[
            "e,0,1,C,,",
            "N,0,1,C,,",
            "E,0,1,K,,",
            "E,0,1,,,",
            "E,0,1,c,,",
            "E,0,1,C,x,",
            "E,0,1,C,,x",
        ],
    );
}

#[test]
fn the_whole_text_is_judged_for_11_before_2_to_4() {
    let bad_node_then_bad_row = text_with(CALL_NODE, "N,0,C,,,9").replace("E,1,2,T,,", "E,1,2,X,,");
    assert_eq!(read(&bad_node_then_bad_row), refused(11, TRANSFER_EDGE));
    let bad_node_and_edge = text_with(CHECK_NODE, "N,1,K,9,P,0 1").replace("E,0,1,C", "E,0,7,C");
    assert_eq!(read(&bad_node_and_edge), refused(2, 1));
}

#[test]
fn the_first_wrong_row_is_named() {
    let text = text_with(CHECK_NODE, "N,1,K,x,P,0 1").replace("E,1,2,T,,", "E");
    assert_eq!(read(&text), refused(11, CHECK_NODE));
}

#[test]
fn bytes_that_are_no_text() {
    let mut text = sound_text().into_bytes();
    text[0] = 0xff;
    assert_eq!(read_graph(&text), refused(11, 1));
    assert_all_11(CALL_NODE, &["N,0,C,\0,E,0 1", "N,0,C,,E\u{e9},0 1", "N,0,C,\"\u{e9}\",E,0 1"]);
}

#[test]
fn refusals_are_printed_as_one_row() {
    assert_eq!(result_of(b""), "refused,11,1\r\n");
    assert_eq!(result_of(text_with(CHECK_NODE, "N,1,K,3,P,0 1").as_bytes()), "refused,2,1\r\n");
    assert_eq!(result_of(text_with(CALL_EDGE, "E,0,3,C,,").as_bytes()), "refused,3,0\r\n");
    assert_eq!(result_of(text_with(CALL_NODE, "N,0,C,,,0 1").as_bytes()), "refused,4,0\r\n");
}

#[test]
fn sets_are_printed_with_one_space_between() {
    let printed = result_of(b"G,12,2,0,,\r\nN,0,K,11,E,0 2 11\r\nN,1,K,0,,\r\n");
    assert_eq!(
        printed,
        "node,denied,granted,verdict\r\n\
         0,1 3 4 5 6 7 8 9 10,0 2 11,1\r\n\
         1,0 1 2 3 4 5 6 7 8 9 10 11,0 1 2 3 4 5 6 7 8 9 10 11,3\r\n"
    );
}
