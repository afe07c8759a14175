//! Writes the requests that follow from no seed.

use std::io::{self, Write};

use second::fixed;

fn main() -> io::Result<()> {
    let mut output = io::BufWriter::new(io::stdout().lock());
    for request in fixed::requests() {
        output.write_all(&request.to_bytes())?;
    }
    output.flush()
}
