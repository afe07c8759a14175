//! Short ways to build graphs, for the tests and the named cases.

use crate::graph::{Graph, CALL, CALL_EDGE, CHECK, RETURN, TRANSFER_EDGE};
use crate::sets;
use crate::text::read_graph;

/// The worked gateway, a row to a line. In the text itself rows end in CRLF.
pub const GATEWAY_ROWS: &str = "\
G,2,8,8,,
N,0,C,,E,0 1
N,1,C,,E,1
N,2,K,0,,0 1
N,3,R,,,0 1
N,4,C,,P,0 1
N,5,K,0,,0 1
N,6,R,,,0 1
N,7,R,,,1
E,0,2,C,,
E,1,2,C,,
E,2,3,T,,
E,1,4,C,,
E,4,5,C,,
E,5,6,T,,
E,4,6,T,,
E,1,7,T,,
";

pub fn with_crlf(rows: &str) -> String {
    rows.replace('\n', "\r\n")
}

pub fn gateway() -> Graph {
    read_graph(with_crlf(GATEWAY_ROWS).as_bytes()).expect("the worked gateway is a graph")
}

pub fn set(members: &[usize]) -> u64 {
    members.iter().fold(sets::EMPTY, |set, &p| sets::add(set, p))
}

pub fn empty_graph(k: usize) -> Graph {
    Graph { k, ..Graph::default() }
}

impl Graph {
    pub fn call_node(self, marks: &str, grants: &[usize]) -> Graph {
        self.node(CALL, 0, marks, grants)
    }

    pub fn return_node(self, marks: &str, grants: &[usize]) -> Graph {
        self.node(RETURN, 0, marks, grants)
    }

    pub fn check_node(self, permission: u16, marks: &str, grants: &[usize]) -> Graph {
        self.node(CHECK, permission, marks, grants)
    }

    fn node(mut self, kind: u8, check: u16, marks: &str, grants: &[usize]) -> Graph {
        self.n += 1;
        self.kinds.push(kind);
        self.checks.push(check);
        self.privileged.push(u8::from(marks.contains('P')));
        self.entries.push(u8::from(marks.contains('E')));
        self.grants.push(set(grants));
        self
    }

    pub fn call(self, from: u16, to: u16) -> Graph {
        self.edge(from, to, CALL_EDGE)
    }

    pub fn transfer(self, from: u16, to: u16) -> Graph {
        self.edge(from, to, TRANSFER_EDGE)
    }

    pub fn edge(mut self, from: u16, to: u16, way: u8) -> Graph {
        self.m += 1;
        self.froms.push(from);
        self.tos.push(to);
        self.ways.push(way);
        self
    }
}
