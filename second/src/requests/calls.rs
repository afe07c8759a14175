//! The calls of a C request and their answers.

use super::numbers::{as_index, push_slice, spaced_numbers, Numbers};
use super::watch::Watch;
use super::Malformed;
use crate::graph::{Graph, Refusal, MOST_EDGES, MOST_NODES};
use crate::machine::{self, Inspection};
use crate::rows::{refused_row, Found};
use crate::solve;
use crate::tally::Tally;

/// What every place that a call may write holds before it.
const KEPT: u64 = 9;

#[derive(Clone, Debug, PartialEq, Eq)]
pub enum Call {
    Check,
    Solve { lengths: [usize; 4] },
    Verdict { node: u64 },
    Full { permission: u64 },
    Quick { permission: u64 },
    Step { next: u64 },
    LendSets { denied: Vec<u64>, granted: Vec<u64> },
    LendStack { height: u64, slice: Vec<u16> },
    PrintResult { length: u64 },
    PrintRefusal { number: u64, place: u64, length: u64 },
}

impl Call {
    pub fn read(numbers: &mut Numbers) -> Result<Call, Malformed> {
        Ok(match numbers.next()? {
            0 => Call::Check,
            1 => Call::Solve { lengths: read_solve_lengths(numbers)? },
            2 => Call::Verdict { node: numbers.next()? },
            3 => Call::Full { permission: numbers.next()? },
            4 => Call::Quick { permission: numbers.next()? },
            5 => Call::Step { next: numbers.next()? },
            6 => Call::LendSets { denied: numbers.slice()?, granted: numbers.slice()? },
            7 => Call::LendStack { height: numbers.next()?, slice: numbers.slice()? },
            8 => Call::PrintResult { length: numbers.next()? },
            9 => Call::PrintRefusal {
                number: numbers.next()?,
                place: numbers.next()?,
                length: numbers.next()?,
            },
            _ => return Err(Malformed("a call that is not 0 to 9")),
        })
    }

    pub fn number(&self) -> usize {
        match self {
            Call::Check => 0,
            Call::Solve { .. } => 1,
            Call::Verdict { .. } => 2,
            Call::Full { .. } => 3,
            Call::Quick { .. } => 4,
            Call::Step { .. } => 5,
            Call::LendSets { .. } => 6,
            Call::LendStack { .. } => 7,
            Call::PrintResult { .. } => 8,
            Call::PrintRefusal { .. } => 9,
        }
    }

    /// The numbers that `read` would take for this call.
    pub fn numbers(&self) -> Vec<u64> {
        let mut numbers = vec![self.number() as u64];
        match self {
            Call::Check => (),
            Call::Solve { lengths } => numbers.extend(lengths.iter().map(|&length| length as u64)),
            Call::Verdict { node: asked }
            | Call::Full { permission: asked }
            | Call::Quick { permission: asked }
            | Call::Step { next: asked }
            | Call::PrintResult { length: asked } => numbers.push(*asked),
            Call::LendSets { denied, granted } => {
                push_slice(&mut numbers, denied);
                push_slice(&mut numbers, granted);
            }
            Call::LendStack { height, slice } => {
                numbers.push(*height);
                push_slice(&mut numbers, slice);
            }
            Call::PrintRefusal { number, place, length } => {
                numbers.extend([number, place, length]);
            }
        }
        numbers
    }
}

fn read_solve_lengths(numbers: &mut Numbers) -> Result<[usize; 4], Malformed> {
    let (node_slice, edge_slice) = (MOST_NODES + 1, MOST_EDGES + 1);
    Ok([
        numbers.length_up_to(node_slice)?,
        numbers.length_up_to(node_slice)?,
        numbers.length_up_to(edge_slice)?,
        numbers.length_up_to(edge_slice)?,
    ])
}

/// A graph and what was last lent.
#[derive(Clone, Debug)]
pub struct Session {
    pub graph: Graph,
    pub denied: Vec<u64>,
    pub granted: Vec<u64>,
    pub stack: Vec<u16>,
    pub height: u64,
    watch: Watch,
}

impl Session {
    pub fn on(graph: Graph) -> Session {
        let (denied, granted, stack, watch) = (vec![], vec![], vec![], Watch::new());
        Session { graph, denied, granted, stack, height: 0, watch }
    }

    pub fn answer(&mut self, call: &Call, tally: &mut Tally) -> String {
        tally.calls[call.number()] += 1;
        let taken = self.take(call, tally);
        self.watch.follow(call, taken.is_ok());
        let mut answer = taken.unwrap_or_else(|refusal| {
            tally.refusals[usize::from(refusal.number)] += 1;
            refused_row(refusal)
        });
        if let Call::Step { .. } = call {
            answer += &line(&self.stack);
        }
        answer
    }

    fn take(&mut self, call: &Call, tally: &mut Tally) -> Result<String, Refusal> {
        match *call {
            Call::Check => self.graph.check().map(|()| "accepted\n".to_string()),
            Call::Solve { lengths } => self.solve(lengths),
            Call::Verdict { node } => self.verdict(node, tally),
            Call::Full { permission } => {
                let found = self.full(permission)?;
                self.watch.full(permission, found);
                Ok(inspected(found, tally))
            }
            Call::Quick { permission } => {
                let found = self.quick(permission)?;
                self.watch.quick(permission, found, tally);
                Ok(inspected(found, tally))
            }
            Call::Step { next } => self.step(next),
            Call::LendSets { ref denied, ref granted } => {
                (self.denied, self.granted) = (denied.clone(), granted.clone());
                Ok(String::new())
            }
            Call::LendStack { height, ref slice } => {
                (self.height, self.stack) = (height, slice.clone());
                Ok(String::new())
            }
            Call::PrintResult { length } => {
                self.result_rows().and_then(|rows| fitted(rows, length))
            }
            Call::PrintRefusal { number, place, length } => {
                fitted(printed_refusal(number, place), length)
            }
        }
    }

    fn solve(&mut self, lengths: [usize; 4]) -> Result<String, Refusal> {
        let [mut denied, mut granted, mut may, mut sure] = lengths.map(|length| vec![KEPT; length]);
        let answer = solve::solve_into(&self.graph, &mut denied, &mut granted, &mut may, &mut sure);
        let lines = [&denied, &granted, &may, &sure].map(|slice| line(slice));
        // The sets count as lent after a refusal too.
        (self.denied, self.granted) = (denied, granted);
        answer.map(|()| "solved\n".to_string() + &lines.concat())
    }

    fn verdict(&self, node: u64, tally: &mut Tally) -> Result<String, Refusal> {
        let node = as_index(node);
        let verdict = solve::verdict(&self.graph, &self.denied, &self.granted, node)?;
        tally.verdicts[usize::from(verdict)] += 1;
        Ok(format!("verdict {verdict}\n"))
    }

    fn full(&self, permission: u64) -> Result<Inspection, Refusal> {
        let permission = as_index(permission);
        machine::full_inspection(&self.graph, &self.stack, self.height(), permission)
    }

    fn quick(&self, permission: u64) -> Result<Inspection, Refusal> {
        let permission = as_index(permission);
        let (denied, granted) = (&self.denied, &self.granted);
        let height = self.height();
        machine::quick_inspection(&self.graph, denied, granted, &self.stack, height, permission)
    }

    fn step(&mut self, next: u64) -> Result<String, Refusal> {
        let (next, height) = (as_index(next), self.height());
        let height = machine::step(&self.graph, &mut self.stack, height, next)?;
        self.height = height as u64;
        Ok(format!("height {height}\n"))
    }

    fn height(&self) -> usize {
        as_index(self.height)
    }

    pub fn result_rows(&self) -> Result<String, Refusal> {
        let found = Found {
            n: self.graph.n,
            kinds: &self.graph.kinds,
            checks: &self.graph.checks,
            denied: &self.denied,
            granted: &self.granted,
        };
        found.rows()
    }
}

fn inspected(inspection: Inspection, tally: &mut Tally) -> String {
    let word = if inspection.passes { "passes" } else { "fails" };
    *(if inspection.passes { &mut tally.passes } else { &mut tally.fails }) += 1;
    format!("{word} {}\n", inspection.frames)
}

pub fn printed_refusal(number: u64, place: u64) -> String {
    let named_place = if matches!(number, 2 | 3 | 11) { place } else { 0 };
    format!("refused,{number},{named_place}\r\n")
}

fn fitted(bytes: String, length: u64) -> Result<String, Refusal> {
    if bytes.len() as u64 > length {
        return Err(Refusal::without_place(10));
    }
    Ok(bytes)
}

fn line<T: ToString>(slice: &[T]) -> String {
    spaced_numbers(slice) + "\n"
}
