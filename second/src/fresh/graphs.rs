//! Graphs that keep every rule: methods of nodes with equal grants, and calls between them.

use super::Random;
use crate::graph::{
    Graph, CALL, CALL_EDGE, CHECK, MOST_EDGES, MOST_NODES, MOST_PERMISSIONS, RETURN, TRANSFER_EDGE,
};
use crate::sets;
use crate::shapes;

pub fn usual(random: &mut Random) -> Graph {
    let k = some_k(random);
    let n = match random.below(40) {
        0 => random.between(31, 120),
        1..=4 => 1,
        5..=20 => random.between(1, 10),
        _ => random.between(1, 30),
    };
    let m = if random.one_in(5) { random.between(0, n) } else { random.between(n, 3 * n) };
    of_size(random, k, n, m)
}

/// Few enough grants and edges that the text of it is not too long.
pub fn large(random: &mut Random) -> Graph {
    match random.below(3) {
        0 => {
            let n = random.pick(&[MOST_NODES, MOST_NODES - 1, 600, 300]);
            let m = random.between(0, 1_500);
            let k = random.between(1, 5);
            of_size(random, k, n, m)
        }
        1 => {
            let (k, n) = (random.between(1, 3), random.between(1, 100));
            of_size(random, k, n, MOST_EDGES)
        }
        _ => largest(random),
    }
}

/// At the limits of nodes and edges; its text may be too long.
pub fn largest(random: &mut Random) -> Graph {
    let k = some_k(random);
    of_size(random, k, MOST_NODES, MOST_EDGES)
}

/// Small enough that a walk comes to most of its nodes.
pub fn for_walks(random: &mut Random) -> Graph {
    let (k, n) = (random.between(1, 8), random.between(6, 24));
    let m = random.between(2 * n, 3 * n);
    of_size(random, k, n, m)
}

/// One that a solver takes long on.
pub fn shape(random: &mut Random) -> Graph {
    let k = some_k(random);
    match random.below(4) {
        0 => shapes::chain(k, random.between(1, 200)),
        1 => shapes::doubled(k, random.between(1, 200)),
        2 => shapes::ring(k, random.below(60)),
        _ => shapes::laps(k, random.between(1, 60)),
    }
}

fn some_k(random: &mut Random) -> usize {
    match random.below(10) {
        0..=3 => random.pick(&[1, 2, MOST_PERMISSIONS - 1, MOST_PERMISSIONS]),
        4..=6 => random.between(1, 6),
        _ => random.between(1, MOST_PERMISSIONS),
    }
}

fn of_size(random: &mut Random, k: usize, n: usize, m: usize) -> Graph {
    let generous = random.one_in(2);
    let graph = Graph { k, n, ..Graph::default() };
    let mut draft = Draft { graph, methods: vec![], generous };
    while draft.graph.kinds.len() < n {
        draft.add_method(random);
    }
    draft.mark_some_entry(random);
    let mut edges = draft.edges(random, m);
    random.shuffle(&mut edges);
    for (from, to, way) in edges {
        push_edge(&mut draft.graph, from, to, way);
    }
    draft.graph
}

fn push_edge(graph: &mut Graph, from: usize, to: usize, way: u8) {
    graph.m += 1;
    graph.froms.push(from as u16);
    graph.tos.push(to as u16);
    graph.ways.push(way);
}

pub fn some_set(random: &mut Random, k: usize) -> u64 {
    let all = sets::all(k);
    let one = 1 << random.below(k.min(MOST_PERMISSIONS));
    match random.below(8) {
        0..=2 => all,
        3 => sets::EMPTY,
        4 => one,
        5 => all & !one,
        6 => all & random.number() & random.number(),
        _ => all & random.number(),
    }
}

struct Method {
    first: usize,
    last: usize,
}

struct Draft {
    graph: Graph,
    methods: Vec<Method>,
    /// Most methods have all grants, so that inspections go far down.
    generous: bool,
}

type Edge = (usize, usize, u8);

impl Draft {
    fn add_method(&mut self, random: &mut Random) {
        let first = self.graph.kinds.len();
        let last = (first + random.below(6)).min(self.graph.n - 1);
        let grants = match self.generous && random.percent(75) {
            true => sets::all(self.graph.k),
            false => some_set(random, self.graph.k),
        };
        for node in first..=last {
            self.add_node(random, grants, node == first, node == last);
        }
        self.methods.push(Method { first, last });
    }

    fn add_node(&mut self, random: &mut Random, grants: u64, is_first: bool, is_last: bool) {
        let kind = match random.below(20) {
            0 => RETURN,
            1..=14 if is_last && !is_first => RETURN,
            1..=15 if is_first => CALL,
            1..=11 => CALL,
            _ => CHECK,
        };
        let graph = &mut self.graph;
        graph.kinds.push(kind);
        graph.checks.push(if kind == CHECK { random.below(graph.k) as u16 } else { 0 });
        graph.privileged.push(random.percent(if self.generous { 5 } else { 12 }).into());
        graph.entries.push(random.percent(if is_first { 25 } else { 4 }).into());
        graph.grants.push(grants);
    }

    fn mark_some_entry(&mut self, random: &mut Random) {
        if !self.graph.entries.contains(&1) {
            let place = random.below(self.methods.len());
            self.graph.entries[self.methods[place].first] = 1;
        }
    }

    /// The edges that make methods run, cut or filled up to the number asked for where there can be.
    fn edges(&self, random: &mut Random, m: usize) -> Vec<Edge> {
        let mut edges: Vec<Edge> = Vec::new();
        for method in &self.methods {
            for node in method.first..=method.last {
                self.add_usual_edges(random, method, node, &mut edges);
            }
        }
        random.shuffle(&mut edges);
        edges.truncate(m);
        let leaving: Vec<usize> =
            (0..self.graph.n).filter(|&node| self.graph.kinds[node] != RETURN).collect();
        while edges.len() < m && !leaving.is_empty() {
            let from = random.pick(&leaving);
            edges.push(self.some_edge(random, from));
        }
        edges
    }

    fn add_usual_edges(
        &self,
        random: &mut Random,
        method: &Method,
        node: usize,
        edges: &mut Vec<Edge>,
    ) {
        let kind = self.graph.kinds[node];
        if kind != RETURN && node < method.last && random.percent(90) {
            edges.push((node, node + 1, TRANSFER_EDGE));
        }
        if kind == CALL {
            for _ in 0..random.between(1, 2) {
                edges.push((node, self.some_first(random), CALL_EDGE));
            }
            // What makes a run as high as the slice allows.
            if random.one_in(10) {
                edges.push((node, node, CALL_EDGE));
            }
        }
    }

    fn some_first(&self, random: &mut Random) -> usize {
        self.methods[random.below(self.methods.len())].first
    }

    fn some_edge(&self, random: &mut Random, from: usize) -> Edge {
        if self.graph.kinds[from] == CALL && random.percent(60) {
            let any = random.below(self.graph.n);
            let to = if random.percent(50) { any } else { self.some_first(random) };
            return (from, to, CALL_EDGE);
        }
        let method = self.methods.iter().find(|method| from <= method.last);
        let method = method.expect("the methods have all nodes");
        (from, random.between(method.first, method.last), TRANSFER_EDGE)
    }
}
