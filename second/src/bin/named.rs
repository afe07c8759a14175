//! Writes the named cases as requests.

use std::io::{self, Write};

use second::named;

fn main() -> io::Result<()> {
    let mut output = io::BufWriter::new(io::stdout().lock());
    for request in named::cases().iter().flat_map(named::Case::with_name) {
        output.write_all(&request.to_bytes())?;
    }
    output.flush()
}
