//! The named cases: worked cases, both sides of every limit, and bad input of every call.

mod build;
mod graph;
mod machine;
mod order;
mod rows;
mod shapes;
mod solver;
mod steps;
mod text;

use crate::requests::Request;

#[derive(Clone, Debug, PartialEq, Eq)]
pub struct Case {
    /// In plain words, beginning with the call.
    pub name: String,
    pub requests: Vec<Request>,
}

impl Case {
    /// The name as a request of its own, so that it stands before the answers.
    pub fn with_name(&self) -> Vec<Request> {
        let name = Request { letter: b'N', body: self.name.clone().into_bytes() };
        [vec![name], self.requests.clone()].concat()
    }
}

/// The cases with the subject that each group of them is about.
pub fn by_subject() -> Vec<(&'static str, Vec<Case>)> {
    vec![
        ("graph", graph::cases()),
        ("solver", [solver::cases(), shapes::cases()].concat()),
        ("machine", [machine::cases(), steps::cases()].concat()),
        ("order", order::cases()),
        ("rows", rows::cases()),
        ("text", text::cases()),
    ]
}

pub fn cases() -> Vec<Case> {
    by_subject().into_iter().flat_map(|(_, cases)| cases).collect()
}
