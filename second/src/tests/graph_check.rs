use crate::build::{empty_graph, set};
use crate::graph::{Graph, Refusal, CALL_EDGE, CHECK, TRANSFER_EDGE};

fn sound() -> Graph {
    empty_graph(2)
        .call_node("E", &[0, 1])
        .check_node(1, "P", &[0, 1])
        .return_node("", &[0, 1])
        .call(0, 1)
        .transfer(1, 2)
        .transfer(0, 2)
}

fn refusal_after(change: impl Fn(&mut Graph)) -> Result<(), Refusal> {
    let mut graph = sound();
    change(&mut graph);
    graph.check()
}

fn refused(number: u8, place: usize) -> Result<(), Refusal> {
    Err(Refusal { number, place })
}

#[test]
fn a_sound_graph_is_accepted() {
    assert_eq!(sound().check(), Ok(()));
}

#[test]
fn counts_out_of_range() {
    assert_eq!(refusal_after(|g| g.k = 0), refused(1, 0));
    assert_eq!(refusal_after(|g| g.k = 65), refused(1, 0));
    assert_eq!(refusal_after(|g| g.k = usize::MAX), refused(1, 0));
    assert_eq!(refusal_after(|g| g.n = 0), refused(1, 0));
    assert_eq!(refusal_after(|g| g.n = usize::MAX), refused(1, 0));
    assert_eq!(refusal_after(|g| g.m = 4_097), refused(1, 0));
    assert_eq!(Graph { k: 1, ..Graph::default() }.check(), refused(1, 0));
}

#[test]
fn every_slice_has_exactly_its_length() {
    let shorten: [fn(&mut Graph); 8] = [
        |g| g.kinds.truncate(1),
        |g| g.checks.truncate(1),
        |g| g.privileged.truncate(1),
        |g| g.entries.truncate(1),
        |g| g.grants.truncate(1),
        |g| g.froms.truncate(1),
        |g| g.tos.truncate(1),
        |g| g.ways.truncate(1),
    ];
    let lengthen: [fn(&mut Graph); 8] = [
        |g| g.kinds.push(0),
        |g| g.checks.push(0),
        |g| g.privileged.push(0),
        |g| g.entries.push(0),
        |g| g.grants.push(0),
        |g| g.froms.push(0),
        |g| g.tos.push(0),
        |g| g.ways.push(0),
    ];
    for change in shorten.into_iter().chain(lengthen) {
        assert_eq!(refusal_after(change), refused(1, 0));
    }
}

#[test]
fn node_rules() {
    assert_eq!(refusal_after(|g| g.kinds[2] = 3), refused(2, 2));
    assert_eq!(refusal_after(|g| g.checks[1] = 2), refused(2, 1));
    assert_eq!(refusal_after(|g| g.checks[0] = 1), refused(2, 0));
    assert_eq!(refusal_after(|g| g.checks[2] = 1), refused(2, 2));
    assert_eq!(refusal_after(|g| g.privileged[1] = 2), refused(2, 1));
    assert_eq!(refusal_after(|g| g.entries[2] = 2), refused(2, 2));
    assert_eq!(refusal_after(|g| g.grants[1] = set(&[0, 2])), refused(2, 1));
    assert_eq!(refusal_after(|g| g.grants[1] = set(&[63])), refused(2, 1));
}

#[test]
fn any_kind_may_be_privileged_or_an_entry() {
    assert_eq!(refusal_after(|g| (g.privileged, g.entries) = (vec![1; 3], vec![1; 3])), Ok(()));
}

#[test]
fn edge_rules() {
    assert_eq!(refusal_after(|g| g.froms[1] = 3), refused(3, 1));
    assert_eq!(refusal_after(|g| g.tos[2] = 3), refused(3, 2));
    assert_eq!(refusal_after(|g| g.tos[0] = u16::MAX), refused(3, 0));
    assert_eq!(refusal_after(|g| g.ways[2] = 2), refused(3, 2));
    assert_eq!(refusal_after(|g| g.ways[1] = CALL_EDGE), refused(3, 1));
    assert_eq!(refusal_after(|g| g.froms[1] = 2), refused(3, 1));
    assert_eq!(refusal_after(|g| (g.froms[0], g.ways[0]) = (2, CALL_EDGE)), refused(3, 0));
    assert_eq!(refusal_after(|g| g.grants[0] = 1), refused(3, 2));
    assert_eq!(refusal_after(|g| (g.grants[0], g.ways[2]) = (1, CALL_EDGE)), Ok(()));
    assert_eq!(refusal_after(|g| g.ways[0] = TRANSFER_EDGE), Ok(()));
}

#[test]
fn no_entry() {
    assert_eq!(refusal_after(|g| g.entries[0] = 0), refused(4, 0));
}

#[test]
fn the_lowest_number_at_its_first_place() {
    assert_eq!(
        refusal_after(|g| {
            g.entries[0] = 0;
            g.tos[2] = 9;
            g.tos[1] = 9;
        }),
        refused(3, 1)
    );
    assert_eq!(
        refusal_after(|g| {
            g.tos[0] = 9;
            g.kinds[2] = 7;
            g.kinds[1] = CHECK;
            g.checks[1] = 5;
        }),
        refused(2, 1)
    );
    assert_eq!(
        refusal_after(|g| {
            g.kinds[0] = 7;
            g.ways.truncate(1);
        }),
        refused(1, 0)
    );
}

#[test]
fn loops_to_oneself_and_repeated_edges() {
    assert_eq!(sound().call(0, 0).call(0, 0).transfer(0, 0).transfer(1, 1).check(), Ok(()));
}
