use crate::build::empty_graph;
use crate::graph::{Graph, Refusal};
use crate::machine::step;
use crate::rows::result_of;
use crate::sets;
use crate::solve::solve;
use crate::text::{read_graph, LONGEST_TEXT};

fn refusal<T>(number: u8, place: usize) -> Result<T, Refusal> {
    Err(Refusal { number, place })
}

fn graph_of_nodes(n: usize) -> Graph {
    (0..n).fold(empty_graph(1), |graph, _| graph.call_node("E", &[]))
}

#[test]
fn nodes_from_1_to_1024() {
    assert_eq!(graph_of_nodes(1).check(), Ok(()));
    assert_eq!(graph_of_nodes(1_024).check(), Ok(()));
    assert_eq!(graph_of_nodes(1_025).check(), refusal(1, 0));
    assert_eq!(graph_of_nodes(0).check(), refusal(1, 0));
}

#[test]
fn permissions_from_1_to_64() {
    let with_k = |k| Graph { k, ..graph_of_nodes(1) };
    assert_eq!(with_k(0).check(), refusal(1, 0));
    assert_eq!(with_k(1).check(), Ok(()));
    assert_eq!(with_k(64).check(), Ok(()));
    assert_eq!(with_k(65).check(), refusal(1, 0));
}

#[test]
fn edges_from_0_to_4096() {
    let with_edges = |m| (0..m).fold(graph_of_nodes(1), |graph, _| graph.call(0, 0));
    assert_eq!(with_edges(0).check(), Ok(()));
    assert_eq!(with_edges(4_096).check(), Ok(()));
    assert_eq!(with_edges(4_097).check(), refusal(1, 0));
}

#[test]
fn all_64_permissions() {
    let every: Vec<usize> = (0..64).collect();
    let graph = empty_graph(64).check_node(63, "E", &every);
    let solution = solve(&graph).unwrap();
    assert_eq!((solution.denied[0], solution.granted[0]), (0, u64::MAX));
    assert_eq!(sets::all(64), u64::MAX);
    assert_eq!(sets::all(65), u64::MAX);
    assert_eq!(sets::all(63), u64::MAX >> 1);
}

#[test]
fn a_chain_through_every_node() {
    let chain = (0..1_024).fold(empty_graph(2), |graph, node| {
        graph.call_node(if node == 0 { "E" } else { "" }, &[1])
    });
    let chain = (0..1_023).fold(chain, |graph, node| graph.call(node, node + 1));
    let solution = solve(&chain).unwrap();
    assert_eq!(solution.denied, [1; 1_024]);
    assert_eq!(solution.granted, [2; 1_024]);
}

#[test]
fn the_last_place_of_the_highest_stack() {
    let graph = empty_graph(1).call_node("E", &[]).call(0, 0);
    let mut stack = [0; 1_024];
    assert_eq!(step(&graph, &mut stack, 1_023, 0), Ok(1_024));
    assert_eq!(step(&graph, &mut stack, 1_024, 0), refusal(10, 0));
    assert_eq!(step(&graph, &mut [0; 1_025], 1_023, 0), refusal(6, 0));
}

#[test]
fn the_lone_return_gives_8() {
    let graph = empty_graph(1).return_node("E", &[]);
    assert_eq!(step(&graph, &mut [0; 4], 1, 0), refusal(8, 0));
}

fn text_of_nodes(k: usize, n: usize) -> String {
    let nodes: String = (0..n).map(|node| format!("N,{node},C,,E,\r\n")).collect();
    format!("G,{k},{n},0,,\r\n{nodes}")
}

#[test]
fn counts_in_a_text() {
    assert_eq!(read_graph(text_of_nodes(64, 1_024).as_bytes()).unwrap().n, 1_024);
    assert_eq!(read_graph(text_of_nodes(1, 1_025).as_bytes()), refusal(11, 1));
    assert_eq!(read_graph(text_of_nodes(65, 1).as_bytes()), refusal(11, 1));
    assert_eq!(read_graph(text_of_nodes(0, 1).as_bytes()), refusal(11, 1));
    assert_eq!(read_graph(text_of_nodes(1, 0).as_bytes()), refusal(11, 1));
    assert_eq!(read_graph(b"G,1,1,4097,,\r\nN,0,C,,E,\r\n"), refusal(11, 1));
}

#[test]
fn all_edges_in_a_text() {
    let edges = "E,0,0,C,,\r\n".repeat(4_096);
    let text = format!("G,1,1,4096,,\r\nN,0,C,,E,\r\n{edges}");
    assert_eq!(read_graph(text.as_bytes()).unwrap().m, 4_096);
    let one_more = format!("{text}E,0,0,C,,\r\n");
    assert_eq!(read_graph(one_more.as_bytes()), refusal(11, 4_099));
    let one_less = text.strip_suffix("E,0,0,C,,\r\n").unwrap();
    assert_eq!(read_graph(one_less.as_bytes()), refusal(11, 4_098));
}

/// A sound text of exactly the longest length: quoting fields makes it longer by two bytes each.
fn longest_sound_text() -> String {
    let head = "G,1,1,4096,,\r\nN,0,C,,E,\r\n".to_string();
    let plain = "E,0,0,C,,\r\n";
    let mut missing = LONGEST_TEXT - head.len() - 4_096 * plain.len();
    // Quoting adds an even number of bytes, so an odd rest needs one more byte in the header.
    let mut text = if missing % 2 == 1 {
        missing -= 1;
        head.replacen("G,1,", "G,10,", 1)
    } else {
        head
    };
    for _ in 0..4_096 {
        let quoted = (missing / 2).min(6);
        missing -= 2 * quoted;
        let fields: Vec<String> = ["E", "0", "0", "C", "", ""]
            .iter()
            .enumerate()
            .map(|(i, field)| if i < quoted { format!("\"{field}\"") } else { field.to_string() })
            .collect();
        text.push_str(&fields.join(","));
        text.push_str("\r\n");
    }
    text
}

#[test]
fn a_text_of_65536_bytes_is_read() {
    let text = longest_sound_text();
    assert_eq!(text.len(), 65_536);
    assert_eq!(read_graph(text.as_bytes()).unwrap().m, 4_096);
}

#[test]
fn a_longer_text_is_12_whatever_it_holds() {
    let longer = longest_sound_text() + "\r\n";
    assert_eq!(read_graph(longer.as_bytes()), refusal(12, 0));
    assert_eq!(read_graph(&[b'x'; 65_537]), refusal(12, 0));
    assert_eq!(read_graph(&[b'x'; 65_536]), refusal(11, 1));
    assert_eq!(result_of(&[0; 65_537]), "refused,12,0\r\n");
}
