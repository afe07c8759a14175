use std::io::{self, Read, Write};

use second::{rows, text};

fn main() -> io::Result<()> {
    let mut input = Vec::new();
    // One byte more than the longest text is enough to tell refusal 12.
    let limit = text::LONGEST_TEXT as u64 + 1;
    io::stdin().lock().take(limit).read_to_end(&mut input)?;
    let mut output = io::stdout().lock();
    output.write_all(rows::result_of(&input).as_bytes())?;
    output.flush()
}
