//! The numbers of a C request, read and written.

use super::Malformed;
use crate::graph::Graph;

pub struct Numbers {
    rest: std::vec::IntoIter<u64>,
}

impl Numbers {
    pub fn of(body: &[u8]) -> Result<Numbers, Malformed> {
        let numbers: Result<Vec<u64>, Malformed> =
            body.split(|&byte| byte == b' ').map(read_number).collect();
        Ok(Numbers { rest: numbers?.into_iter() })
    }

    pub fn ended(&self) -> bool {
        self.rest.len() == 0
    }

    pub fn next(&mut self) -> Result<u64, Malformed> {
        self.rest.next().ok_or(Malformed("numbers that end too soon"))
    }

    pub fn index(&mut self) -> Result<usize, Malformed> {
        self.next().map(as_index)
    }

    pub fn length_up_to(&mut self, most: usize) -> Result<usize, Malformed> {
        let length = self.index()?;
        if length > most {
            return Err(Malformed("a slice longer than the protocol has it"));
        }
        Ok(length)
    }

    /// A length and so many numbers.
    pub fn slice<T: TryFrom<u64>>(&mut self) -> Result<Vec<T>, Malformed> {
        let length = self.length_up_to(self.rest.len().saturating_sub(1))?;
        (0..length).map(|_| self.entry()).collect()
    }

    fn entry<T: TryFrom<u64>>(&mut self) -> Result<T, Malformed> {
        T::try_from(self.next()?).map_err(|_| Malformed("a number too large for its slice"))
    }

    pub fn graph(&mut self) -> Result<Graph, Malformed> {
        Ok(Graph {
            k: self.index()?,
            n: self.index()?,
            m: self.index()?,
            kinds: self.slice()?,
            checks: self.slice()?,
            privileged: self.slice()?,
            entries: self.slice()?,
            grants: self.slice()?,
            froms: self.slice()?,
            tos: self.slice()?,
            ways: self.slice()?,
        })
    }
}

pub fn read_number(digits: &[u8]) -> Result<u64, Malformed> {
    // `parse` alone would take a sign.
    let only_digits = digits.iter().all(u8::is_ascii_digit);
    let text = std::str::from_utf8(digits).ok().filter(|_| only_digits);
    text.and_then(|text| text.parse().ok()).ok_or(Malformed("something that is no 64-bit number"))
}

/// Where an index is narrower than the number, its greatest value is out of every range as well.
pub fn as_index(number: u64) -> usize {
    usize::try_from(number).unwrap_or(usize::MAX)
}

pub fn graph_numbers(graph: &Graph) -> Vec<u64> {
    let mut numbers = vec![graph.k as u64, graph.n as u64, graph.m as u64];
    push_slice(&mut numbers, &graph.kinds);
    push_slice(&mut numbers, &graph.checks);
    push_slice(&mut numbers, &graph.privileged);
    push_slice(&mut numbers, &graph.entries);
    push_slice(&mut numbers, &graph.grants);
    push_slice(&mut numbers, &graph.froms);
    push_slice(&mut numbers, &graph.tos);
    push_slice(&mut numbers, &graph.ways);
    numbers
}

pub fn push_slice<T: Copy + Into<u64>>(numbers: &mut Vec<u64>, slice: &[T]) {
    numbers.push(slice.len() as u64);
    numbers.extend(slice.iter().map(|&number| number.into()));
}

pub fn spaced_numbers<T: ToString>(numbers: &[T]) -> String {
    let words: Vec<String> = numbers.iter().map(|number| number.to_string()).collect();
    words.join(" ")
}
