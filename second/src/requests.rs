//! The requests by which every call is compared from outside, and their answers.

mod calls;
mod numbers;
mod texts;
mod watch;

pub use calls::{printed_refusal, Call, Session};
pub use numbers::{graph_numbers, spaced_numbers};
pub use texts::{rows_of, READER_LENGTHS};

use crate::tally::Tally;
use numbers::Numbers;

/// A letter, five digits and a line feed.
pub const HEAD: usize = 7;
pub const LONGEST_BODY: usize = 99_999;

#[derive(Clone, Debug, PartialEq, Eq)]
pub struct Request {
    pub letter: u8,
    pub body: Vec<u8>,
}

/// A request that the protocol doesn't know, and why.
#[derive(Clone, Copy, Debug, PartialEq, Eq)]
pub struct Malformed(pub &'static str);

impl Request {
    pub fn to_bytes(&self) -> Vec<u8> {
        let mut bytes = vec![self.letter];
        bytes.extend(format!("{:05}\n", self.body.len()).bytes());
        bytes.extend(&self.body);
        bytes
    }

    pub fn answer(&self, tally: &mut Tally) -> Result<String, Malformed> {
        tally.requests += 1;
        match self.letter {
            b'T' => Ok(texts::answer_text(&self.body, &READER_LENGTHS, tally)),
            b'L' => texts::answer_lengths_and_text(&self.body, tally),
            b'C' => answer_calls(&self.body, tally),
            b'N' => Ok(format!("{}\n", String::from_utf8_lossy(&self.body))),
            _ => Err(Malformed("a letter that is not T, L, C or N")),
        }
    }
}

/// The requests of an input, in order.
pub fn split(input: &[u8]) -> Result<Vec<Request>, Malformed> {
    let mut requests = Vec::new();
    let mut rest = input;
    while !rest.is_empty() {
        let (request, after) = split_first(rest)?;
        requests.push(request);
        rest = after;
    }
    Ok(requests)
}

fn split_first(input: &[u8]) -> Result<(Request, &[u8]), Malformed> {
    if input.len() < HEAD || input[HEAD - 1] != b'\n' {
        return Err(Malformed("a head that is not a letter, five digits and a line feed"));
    }
    let length = numbers::read_number(&input[1..HEAD - 1])?;
    let (head, rest) = input.split_at(HEAD);
    let length = numbers::as_index(length);
    if rest.len() < length {
        return Err(Malformed("fewer bytes than the head says"));
    }
    let (body, after) = rest.split_at(length);
    Ok((Request { letter: head[0], body: body.to_vec() }, after))
}

fn answer_calls(body: &[u8], tally: &mut Tally) -> Result<String, Malformed> {
    let mut numbers = Numbers::of(body)?;
    let mut session = Session::on(numbers.graph()?);
    let mut answers = String::new();
    while !numbers.ended() {
        answers += &session.answer(&Call::read(&mut numbers)?, tally);
    }
    Ok(answers)
}
