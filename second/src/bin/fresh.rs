//! Made-up requests: written out, or put to a program and compared.

use std::env;
use std::io::{self, Write};
use std::process::ExitCode;

use second::compare::{compare, Difference, Outcome, Plan};
use second::fresh;
use second::tally::Tally;

const USAGE: &str =
    "usage: fresh write SEED COUNT [LONGEST]\n       fresh compare SEED COUNT PROGRAM [ARGUMENTS...]";

const EXCERPT: usize = 300;

fn main() -> ExitCode {
    let arguments: Vec<String> = env::args().skip(1).collect();
    let numbers = |place: usize| arguments.get(place).and_then(|word| word.parse::<u64>().ok());
    match (arguments.first().map(String::as_str), numbers(1), numbers(2)) {
        (Some("write"), Some(seed), Some(count)) if arguments.len() == 3 => {
            write(seed, count, usize::MAX)
        }
        (Some("write"), Some(seed), Some(count)) if arguments.len() == 4 => {
            let longest = numbers(3).and_then(|most| usize::try_from(most).ok());
            longest.map_or_else(usage, |longest| write(seed, count, longest))
        }
        (Some("compare"), Some(seed), Some(count)) if arguments.len() > 3 => {
            report(&Plan { seed, count, program: arguments[3..].to_vec() })
        }
        _ => usage(),
    }
}

fn usage() -> ExitCode {
    eprintln!("{USAGE}");
    ExitCode::from(2)
}

/// Writes the requests whose body has at most so many bytes, and passes over the others.
fn write(seed: u64, count: u64, longest: usize) -> ExitCode {
    let mut output = io::BufWriter::new(io::stdout().lock());
    let written = (0..count)
        .map(|index| fresh::request(seed, index))
        .filter(|request| request.body.len() <= longest)
        .try_for_each(|request| output.write_all(&request.to_bytes()))
        .and_then(|()| output.flush());
    match written {
        Ok(()) => ExitCode::SUCCESS,
        Err(error) => {
            eprintln!("fresh: {error}");
            ExitCode::from(2)
        }
    }
}

fn report(plan: &Plan) -> ExitCode {
    match compare(plan) {
        Outcome::Same(tally) => {
            print!("{tally}");
            conclude(&tally)
        }
        Outcome::Different(difference) => {
            tell(plan.seed, &difference);
            ExitCode::from(1)
        }
        Outcome::Died(why) => {
            println!("not compared: {why}");
            ExitCode::from(2)
        }
    }
}

fn conclude(tally: &Tally) -> ExitCode {
    if !tally.inspections_agree() {
        println!("quick inspection is not as good as full on a stack that steps reach");
        return ExitCode::from(1);
    }
    println!("no difference");
    ExitCode::SUCCESS
}

fn tell(seed: u64, difference: &Difference) {
    let Difference { index, alone, .. } = difference;
    let name = format!("difference-{seed}-{index}");
    println!("difference at request {index} of seed {seed}");
    if !alone {
        println!("it shows only after the requests before it in its batch, which are stored too");
    }
    store(&format!("{name}.request"), "the request", &difference.input);
    store(&format!("{name}.ours"), "our answer", &difference.ours);
    store(&format!("{name}.theirs"), "the program's answer", &difference.theirs);
    let same = difference.ours.iter().zip(&difference.theirs).take_while(|(a, b)| a == b).count();
    println!("the answers agree in their first {same} bytes; then, from the last line start:");
    let start =
        difference.ours[..same].iter().rposition(|&byte| byte == b'\n').map_or(0, |at| at + 1);
    println!("ours:   {}", excerpt(&difference.ours[start..]));
    println!("theirs: {}", excerpt(&difference.theirs[start..]));
}

fn store(name: &str, what: &str, bytes: &[u8]) {
    let path = env::current_dir().unwrap_or_default().join(name);
    match std::fs::write(&path, bytes) {
        Ok(()) => println!("{what} is in {} ({} bytes)", path.display(), bytes.len()),
        Err(error) => println!("{what} could not be stored in {}: {error}", path.display()),
    }
}

fn excerpt(bytes: &[u8]) -> String {
    bytes[..bytes.len().min(EXCERPT)].escape_ascii().to_string()
}
