//! Answers the requests that the program `requests` answers, for comparison.

use std::io::{self, Read, Write};

use second::requests;
use second::tally::Tally;

fn main() -> io::Result<()> {
    let mut input = Vec::new();
    io::stdin().read_to_end(&mut input)?;
    let mut output = io::BufWriter::new(io::stdout().lock());
    for request in requests::split(&input).map_err(malformed)? {
        let answer = request.answer(&mut Tally::default()).map_err(malformed)?;
        output.write_all(answer.as_bytes())?;
    }
    output.flush()
}

fn malformed(requests::Malformed(why): requests::Malformed) -> io::Error {
    io::Error::new(io::ErrorKind::InvalidData, why)
}
