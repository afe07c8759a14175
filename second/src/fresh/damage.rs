//! Graphs that break one rule, or none by chance.

use super::{graphs, Random};
use crate::graph::{Graph, CALL_EDGE, TRANSFER_EDGE};
use crate::sets;

type Damage = fn(&mut Graph, &mut Random);

/// The commoner ones more than once.
const DAMAGES: [Damage; 11] = [
    change_count,
    change_count,
    change_length,
    change_length,
    change_node,
    change_node,
    change_node,
    change_edge,
    change_edge,
    change_edge,
    clear_entries,
];

pub fn damaged(random: &mut Random) -> Graph {
    if random.one_in(150) {
        return past_the_limits(random);
    }
    let mut graph = graphs::usual(random);
    let damage = random.pick(&DAMAGES);
    damage(&mut graph, random);
    if random.one_in(8) {
        change_node(&mut graph, random);
    }
    graph
}

/// One node or edge too many, with slices that fit.
fn past_the_limits(random: &mut Random) -> Graph {
    let mut graph = graphs::largest(random);
    if random.one_in(2) {
        graph.n += 1;
        graph.kinds.push(0);
        graph.checks.push(0);
        graph.privileged.push(0);
        graph.entries.push(0);
        graph.grants.push(0);
    } else {
        graph.m += 1;
        graph.froms.push(0);
        graph.tos.push(0);
        graph.ways.push(CALL_EDGE);
    }
    graph
}

fn change_count(graph: &mut Graph, random: &mut Random) {
    let far = random.pick(&[0, 65, 1_025, 4_097, usize::MAX, usize::MAX - 1, 1 << 32, 1 << 63]);
    let near = |count: usize, random: &mut Random| match random.below(3) {
        0 => count.wrapping_add(1),
        1 => count.wrapping_sub(1),
        _ => far,
    };
    match random.below(3) {
        0 => graph.k = random.pick(&[0, 65, 66, 128, usize::MAX, 1 << 32, far]),
        1 => graph.n = near(graph.n, random),
        _ => graph.m = near(graph.m, random),
    }
}

fn change_length(graph: &mut Graph, random: &mut Random) {
    let shorter = random.one_in(2);
    match random.below(8) {
        0 => resize(&mut graph.kinds, shorter),
        1 => resize(&mut graph.checks, shorter),
        2 => resize(&mut graph.privileged, shorter),
        3 => resize(&mut graph.entries, shorter),
        4 => resize(&mut graph.grants, shorter),
        5 => resize(&mut graph.froms, shorter),
        6 => resize(&mut graph.tos, shorter),
        _ => resize(&mut graph.ways, shorter),
    }
}

fn resize<T: Default>(slice: &mut Vec<T>, shorter: bool) {
    if !shorter || slice.pop().is_none() {
        slice.push(T::default());
    }
}

fn change_node(graph: &mut Graph, random: &mut Random) {
    let lengths = [
        graph.kinds.len(),
        graph.checks.len(),
        graph.privileged.len(),
        graph.entries.len(),
        graph.grants.len(),
    ];
    let nodes = lengths.into_iter().min().unwrap_or(0);
    if nodes == 0 {
        return;
    }
    let node = random.below(nodes);
    match random.below(5) {
        0 => graph.kinds[node] = random.pick(&[0, 1, 2, 3, 255]),
        1 => graph.checks[node] = some_check(graph, random),
        2 => graph.privileged[node] = random.pick(&[2, 3, 255]),
        3 => graph.entries[node] = random.pick(&[2, 3, 255]),
        _ => graph.grants[node] = wider_set(graph, random),
    }
}

fn some_check(graph: &Graph, random: &mut Random) -> u16 {
    let at_k = u16::try_from(graph.k).unwrap_or(u16::MAX);
    random.pick(&[at_k, at_k.saturating_add(1), 1, 63, 64, 65, 256, u16::MAX])
}

fn wider_set(graph: &Graph, random: &mut Random) -> u64 {
    let outside = !sets::all(graph.k);
    match random.below(3) {
        0 => sets::all(graph.k.saturating_add(1)),
        1 => outside,
        _ => sets::all(graph.k) | outside & random.number(),
    }
}

fn change_edge(graph: &mut Graph, random: &mut Random) {
    let edges = graph.froms.len().min(graph.tos.len()).min(graph.ways.len());
    if edges == 0 {
        return change_node(graph, random);
    }
    let edge = random.below(edges);
    let at_n = u16::try_from(graph.n).unwrap_or(u16::MAX);
    let past = random.pick(&[at_n, at_n, at_n.saturating_add(1), 1_024, 65_535]);
    let any = random.below(graph.kinds.len().max(1)) as u16;
    match random.below(6) {
        0 => graph.froms[edge] = past,
        1 => graph.tos[edge] = past,
        2 => graph.ways[edge] = random.pick(&[2, 3, 255]),
        3 => graph.ways[edge] = CALL_EDGE + TRANSFER_EDGE - graph.ways[edge].min(1),
        4 => (graph.tos[edge], graph.ways[edge]) = (any, TRANSFER_EDGE),
        _ => graph.froms[edge] = any,
    }
}

fn clear_entries(graph: &mut Graph, _: &mut Random) {
    graph.entries.fill(0);
}
