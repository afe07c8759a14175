//! What the program prints for a text.

use crate::graph::{Refusal, CHECK, MOST_NODES, MOST_PERMISSIONS};
use crate::sets;
use crate::solve;
use crate::text;

pub const HEADER: &str = "node,denied,granted,verdict\r\n";

pub fn result_of(text: &[u8]) -> String {
    solved_rows(text).unwrap_or_else(refused_row)
}

fn solved_rows(text: &[u8]) -> Result<String, Refusal> {
    let graph = text::read_graph(text)?;
    let solution = solve::solve(&graph)?;
    let found = Found {
        n: graph.n,
        kinds: &graph.kinds,
        checks: &graph.checks,
        denied: &solution.denied,
        granted: &solution.granted,
    };
    found.rows()
}

/// All that the rows are printed from. It is no graph yet, so a check permission may be any number.
pub struct Found<'a> {
    pub n: usize,
    pub kinds: &'a [u8],
    pub checks: &'a [u16],
    pub denied: &'a [u64],
    pub granted: &'a [u64],
}

impl Found<'_> {
    pub fn rows(&self) -> Result<String, Refusal> {
        if self.n == 0 || self.n > MOST_NODES || !self.lengths_fit() {
            return Err(Refusal::without_place(1));
        }
        let rows: String = (0..self.n).map(|node| self.row(node)).collect();
        Ok(HEADER.to_string() + &rows)
    }

    fn lengths_fit(&self) -> bool {
        let lengths = [self.kinds.len(), self.checks.len(), self.denied.len(), self.granted.len()];
        lengths.iter().all(|&length| length == self.n)
    }

    fn row(&self, node: usize) -> String {
        let denied = spaced(self.denied[node]);
        let granted = spaced(self.granted[node]);
        format!("{node},{denied},{granted},{}\r\n", self.verdict(node))
    }

    fn verdict(&self, node: usize) -> String {
        if self.kinds[node] != CHECK {
            return String::new();
        }
        let permission = usize::from(self.checks[node]);
        let holds = |set| permission < MOST_PERMISSIONS && sets::holds(set, permission);
        solve::verdict_of(holds(self.denied[node]), holds(self.granted[node])).to_string()
    }
}

pub fn spaced(set: u64) -> String {
    let members: Vec<String> =
        sets::members(set).iter().map(|permission| permission.to_string()).collect();
    members.join(" ")
}

pub fn refused_row(refusal: Refusal) -> String {
    format!("refused,{},{}\r\n", refusal.number, refusal.place)
}
