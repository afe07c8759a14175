//! The graph, the refusals, and the judgement of a graph (refusals 1 to 4).

use crate::sets;

pub const MOST_PERMISSIONS: usize = 64;
pub const MOST_NODES: usize = 1_024;
pub const MOST_EDGES: usize = 4_096;

pub const CALL: u8 = 0;
pub const RETURN: u8 = 1;
pub const CHECK: u8 = 2;

pub const CALL_EDGE: u8 = 0;
pub const TRANSFER_EDGE: u8 = 1;

#[derive(Clone, Copy, Debug, PartialEq, Eq)]
pub struct Refusal {
    pub number: u8,
    pub place: usize,
}

impl Refusal {
    pub fn at(number: u8, place: usize) -> Refusal {
        Refusal { number, place }
    }

    pub fn without_place(number: u8) -> Refusal {
        Refusal { number, place: 0 }
    }
}

#[derive(Clone, Debug, Default, PartialEq, Eq)]
pub struct Graph {
    pub k: usize,
    pub n: usize,
    pub m: usize,
    pub kinds: Vec<u8>,
    pub checks: Vec<u16>,
    pub privileged: Vec<u8>,
    pub entries: Vec<u8>,
    pub grants: Vec<u64>,
    pub froms: Vec<u16>,
    pub tos: Vec<u16>,
    pub ways: Vec<u8>,
}

impl Graph {
    /// Refusals 1 to 4: the lowest number that applies, at its first place.
    pub fn check(&self) -> Result<(), Refusal> {
        if !self.counts_in_range() || !self.lengths_fit() {
            return Err(Refusal::without_place(1));
        }
        if let Some(node) = (0..self.n).find(|&node| !self.node_keeps_its_rule(node)) {
            return Err(Refusal::at(2, node));
        }
        if let Some(edge) = (0..self.m).find(|&edge| !self.edge_keeps_its_rule(edge)) {
            return Err(Refusal::at(3, edge));
        }
        if !(0..self.n).any(|node| self.is_entry(node)) {
            return Err(Refusal::without_place(4));
        }
        Ok(())
    }

    fn counts_in_range(&self) -> bool {
        (1..=MOST_PERMISSIONS).contains(&self.k)
            && (1..=MOST_NODES).contains(&self.n)
            && self.m <= MOST_EDGES
    }

    fn lengths_fit(&self) -> bool {
        self.kinds.len() == self.n
            && self.checks.len() == self.n
            && self.privileged.len() == self.n
            && self.entries.len() == self.n
            && self.grants.len() == self.n
            && self.froms.len() == self.m
            && self.tos.len() == self.m
            && self.ways.len() == self.m
    }

    fn node_keeps_its_rule(&self, node: usize) -> bool {
        let check_fits = match self.kinds[node] {
            CALL | RETURN => self.checks[node] == 0,
            CHECK => usize::from(self.checks[node]) < self.k,
            _ => false,
        };
        check_fits
            && self.privileged[node] <= 1
            && self.entries[node] <= 1
            && sets::lies_within(self.grants[node], sets::all(self.k))
    }

    fn edge_keeps_its_rule(&self, edge: usize) -> bool {
        let (from, to) = (self.from(edge), self.to(edge));
        if from >= self.n || to >= self.n {
            return false;
        }
        match self.ways[edge] {
            CALL_EDGE => self.kinds[from] == CALL,
            TRANSFER_EDGE => {
                (self.kinds[from] == CALL || self.kinds[from] == CHECK)
                    && self.grants[from] == self.grants[to]
            }
            _ => false,
        }
    }

    pub fn is_entry(&self, node: usize) -> bool {
        self.entries[node] == 1
    }

    pub fn is_privileged(&self, node: usize) -> bool {
        self.privileged[node] == 1
    }

    pub fn is_check(&self, node: usize) -> bool {
        self.kinds[node] == CHECK
    }

    pub fn checked_permission(&self, node: usize) -> usize {
        usize::from(self.checks[node])
    }

    pub fn from(&self, edge: usize) -> usize {
        usize::from(self.froms[edge])
    }

    pub fn to(&self, edge: usize) -> usize {
        usize::from(self.tos[edge])
    }

    pub fn has_edge(&self, from: usize, to: usize, way: u8) -> bool {
        (0..self.m)
            .any(|edge| self.from(edge) == from && self.to(edge) == to && self.ways[edge] == way)
    }
}
