//! The reader: from the bytes of a text to a graph, or a refusal.

use crate::graph::{
    Graph, Refusal, CALL, CALL_EDGE, CHECK, MOST_EDGES, MOST_NODES, MOST_PERMISSIONS, RETURN,
    TRANSFER_EDGE,
};
use crate::sets;

pub const LONGEST_TEXT: usize = 65_536;

const FIELDS_IN_A_ROW: usize = 6;
const MOST_DIGITS: usize = 4;

/// Refusals in the order 12, 11, then 2 to 4.
pub fn read_graph(text: &[u8]) -> Result<Graph, Refusal> {
    if text.len() > LONGEST_TEXT {
        return Err(Refusal::without_place(12));
    }
    let described = read_rows(text)?;
    judge_permissions(&described)?;
    let graph = to_graph(&described);
    graph.check()?;
    Ok(graph)
}

struct Counts {
    k: usize,
    n: usize,
    m: usize,
}

/// A node as the text gives it; a `u64` set could not hold every member it may name.
struct NodeRow {
    kind: u8,
    check: Option<usize>,
    privileged: bool,
    entry: bool,
    grants: Vec<usize>,
}

struct EdgeRow {
    from: usize,
    to: usize,
    way: u8,
}

struct Described {
    counts: Counts,
    nodes: Vec<NodeRow>,
    edges: Vec<EdgeRow>,
}

fn read_rows(text: &[u8]) -> Result<Described, Refusal> {
    let mut rows = Rows { rest: text, number: 0 };
    let counts = rows.next_as(read_header)?;
    let mut nodes = Vec::new();
    for number in 0..counts.n {
        nodes.push(rows.next_as(|fields| read_node(fields, number))?);
    }
    let mut edges = Vec::new();
    for _ in 0..counts.m {
        edges.push(rows.next_as(read_edge)?);
    }
    if !rows.rest.is_empty() {
        return Err(Refusal::at(11, rows.number + 1));
    }
    Ok(Described { counts, nodes, edges })
}

struct Rows<'a> {
    rest: &'a [u8],
    number: usize,
}

impl<'a> Rows<'a> {
    fn next_as<T>(
        &mut self,
        read: impl Fn(&[&'a [u8]; FIELDS_IN_A_ROW]) -> Option<T>,
    ) -> Result<T, Refusal> {
        self.number += 1;
        self.next_fields().and_then(|fields| read(&fields)).ok_or(Refusal::at(11, self.number))
    }

    fn next_fields(&mut self) -> Option<[&'a [u8]; FIELDS_IN_A_ROW]> {
        if self.rest.is_empty() {
            return None;
        }
        let mut fields = Vec::new();
        loop {
            let (field, after) = split_field(self.rest)?;
            fields.push(field);
            if let Some(rest) = after.strip_prefix(b",") {
                self.rest = rest;
                continue;
            }
            self.rest = after.strip_prefix(b"\r\n").unwrap_or(after);
            return fields.try_into().ok();
        }
    }
}

/// A field's inside, and the text from the comma or row end that follows it.
fn split_field(text: &[u8]) -> Option<(&[u8], &[u8])> {
    match text.strip_prefix(b"\"") {
        Some(opened) => split_quoted_field(opened),
        None => split_plain_field(text),
    }
}

fn split_quoted_field(opened: &[u8]) -> Option<(&[u8], &[u8])> {
    let length = opened.iter().position(|&byte| byte == b'"')?;
    let (field, after) = (&opened[..length], &opened[length + 1..]);
    // A doubled quote is refused here too: its second quote ends no field.
    ends_field(after).then_some((field, after))
}

fn split_plain_field(text: &[u8]) -> Option<(&[u8], &[u8])> {
    let length = (0..=text.len()).find(|&place| ends_field(&text[place..]))?;
    let (field, after) = text.split_at(length);
    (!field.contains(&b'"')).then_some((field, after))
}

fn ends_field(after: &[u8]) -> bool {
    after.is_empty() || after.starts_with(b",") || after.starts_with(b"\r\n")
}

fn read_header(fields: &[&[u8]; FIELDS_IN_A_ROW]) -> Option<Counts> {
    let [letter, k, n, m, empty, also_empty] = *fields;
    if letter != b"G" || !empty.is_empty() || !also_empty.is_empty() {
        return None;
    }
    let counts = Counts { k: read_number(k)?, n: read_number(n)?, m: read_number(m)? };
    let in_range = (1..=MOST_PERMISSIONS).contains(&counts.k)
        && (1..=MOST_NODES).contains(&counts.n)
        && counts.m <= MOST_EDGES;
    in_range.then_some(counts)
}

fn read_node(fields: &[&[u8]; FIELDS_IN_A_ROW], expected_number: usize) -> Option<NodeRow> {
    let [letter, number, kind, check, marks, grants] = *fields;
    if letter != b"N" || read_number(number)? != expected_number {
        return None;
    }
    let kind = read_node_kind(kind)?;
    let check = read_check_permission(kind, check)?;
    let (privileged, entry) = read_marks(marks)?;
    let grants = read_grants(grants)?;
    Some(NodeRow { kind, check, privileged, entry, grants })
}

fn read_node_kind(field: &[u8]) -> Option<u8> {
    match field {
        b"C" => Some(CALL),
        b"R" => Some(RETURN),
        b"K" => Some(CHECK),
        _ => None,
    }
}

/// The outer option tells a wrong field, the inner one a node that is no check.
fn read_check_permission(kind: u8, field: &[u8]) -> Option<Option<usize>> {
    if kind == CHECK {
        read_number(field).map(Some)
    } else {
        field.is_empty().then_some(None)
    }
}

fn read_marks(field: &[u8]) -> Option<(bool, bool)> {
    match field {
        b"" => Some((false, false)),
        b"P" => Some((true, false)),
        b"E" => Some((false, true)),
        b"PE" => Some((true, true)),
        _ => None,
    }
}

fn read_grants(field: &[u8]) -> Option<Vec<usize>> {
    if field.is_empty() {
        return Some(Vec::new());
    }
    let members: Option<Vec<usize>> = field.split(|&byte| byte == b' ').map(read_number).collect();
    members.filter(|members| members.windows(2).all(|pair| pair[0] < pair[1]))
}

fn read_edge(fields: &[&[u8]; FIELDS_IN_A_ROW]) -> Option<EdgeRow> {
    let [letter, from, to, way, empty, also_empty] = *fields;
    if letter != b"E" || !empty.is_empty() || !also_empty.is_empty() {
        return None;
    }
    let way = match way {
        b"C" => CALL_EDGE,
        b"T" => TRANSFER_EDGE,
        _ => return None,
    };
    Some(EdgeRow { from: read_number(from)?, to: read_number(to)?, way })
}

/// Five digits or more are refused in every field: as a count or a row's own number they are out
/// of range or order, and for a permission or edge end the rules say so.
fn read_number(field: &[u8]) -> Option<usize> {
    let digits_only = field.iter().all(u8::is_ascii_digit);
    let needless_zero = field.len() > 1 && field[0] == b'0';
    if field.is_empty() || field.len() > MOST_DIGITS || !digits_only || needless_zero {
        return None;
    }
    Some(field.iter().fold(0, |value, &digit| 10 * value + usize::from(digit - b'0')))
}

/// Refusal 2 for every way in which a node row can break the node's rule.
fn judge_permissions(described: &Described) -> Result<(), Refusal> {
    let k = described.counts.k;
    let breaks_rule =
        |node: &NodeRow| node.check.iter().chain(&node.grants).any(|&permission| permission >= k);
    match described.nodes.iter().position(breaks_rule) {
        Some(node) => Err(Refusal::at(2, node)),
        None => Ok(()),
    }
}

/// The permissions must have been judged. The numbers have at most four digits, so each fits.
fn to_graph(described: &Described) -> Graph {
    let nodes = &described.nodes;
    let edges = &described.edges;
    Graph {
        k: described.counts.k,
        n: described.counts.n,
        m: described.counts.m,
        kinds: nodes.iter().map(|node| node.kind).collect(),
        checks: nodes.iter().map(|node| node.check.unwrap_or(0) as u16).collect(),
        privileged: nodes.iter().map(|node| u8::from(node.privileged)).collect(),
        entries: nodes.iter().map(|node| u8::from(node.entry)).collect(),
        grants: nodes.iter().map(|node| set_of(&node.grants)).collect(),
        froms: edges.iter().map(|edge| edge.from as u16).collect(),
        tos: edges.iter().map(|edge| edge.to as u16).collect(),
        ways: edges.iter().map(|edge| edge.way).collect(),
    }
}

fn set_of(members: &[usize]) -> u64 {
    members.iter().fold(sets::EMPTY, |set, &permission| sets::add(set, permission))
}
