//! Puts made-up requests to a program and compares its answers with those of this library.

use std::io::{self, Read, Write};
use std::process::{Command, ExitStatus, Stdio};
use std::sync::Mutex;
use std::thread;
use std::time::{Duration, Instant};

use crate::fresh;
use crate::requests::Request;
use crate::tally::Tally;

const BATCH: u64 = 500;
const PROCESSES: usize = 2;
const PROGRESS_EVERY: Duration = Duration::from_secs(5);

pub struct Plan {
    pub seed: u64,
    pub count: u64,
    /// The program and its arguments; not empty.
    pub program: Vec<String>,
}

pub enum Outcome {
    Same(Box<Tally>),
    Different(Box<Difference>),
    /// Why there was no answer to compare.
    Died(String),
}

/// The first request that is answered otherwise.
pub struct Difference {
    pub index: u64,
    /// The bytes that show the difference when the program is given them.
    pub input: Vec<u8>,
    /// Whether the request shows it alone, without those before it in its batch.
    pub alone: bool,
    pub ours: Vec<u8>,
    pub theirs: Vec<u8>,
}

enum Fault {
    Different(Difference),
    Died(String),
}

struct Progress {
    next: u64,
    tally: Tally,
    /// The fault of the lowest batch that has one, with that batch's first index.
    fault: Option<(u64, Fault)>,
    said: Instant,
}

pub fn compare(plan: &Plan) -> Outcome {
    let start = Progress { next: 0, tally: Tally::default(), fault: None, said: Instant::now() };
    let shared = Mutex::new(start);
    thread::scope(|scope| {
        for _ in 0..PROCESSES {
            scope.spawn(|| work(plan, &shared));
        }
    });
    let progress = shared.into_inner().expect("no worker panicked");
    match progress.fault {
        Some((_, Fault::Different(difference))) => Outcome::Different(Box::new(difference)),
        Some((_, Fault::Died(why))) => Outcome::Died(why),
        None if progress.tally.requests == 0 => Outcome::Died("no request was compared".into()),
        None => Outcome::Same(Box::new(progress.tally)),
    }
}

fn work(plan: &Plan, shared: &Mutex<Progress>) {
    while let Some(first) = take_batch(plan, shared) {
        let last = plan.count.min(first.saturating_add(BATCH));
        let outcome = compare_batch(plan, first, last);
        let mut progress = shared.lock().expect("no worker panicked");
        match outcome {
            Ok(tally) => progress.tally.add(&tally),
            Err(fault) => progress.keep_lowest(first, fault),
        }
        progress.say_now_and_then(plan);
    }
}

/// The first index of a batch that nobody has. Batches are taken in order, so that after a fault
/// every batch below it is still compared.
fn take_batch(plan: &Plan, shared: &Mutex<Progress>) -> Option<u64> {
    let mut progress = shared.lock().expect("no worker panicked");
    let first = progress.next;
    if progress.fault.is_some() || first >= plan.count {
        return None;
    }
    progress.next = first.saturating_add(BATCH);
    Some(first)
}

impl Progress {
    fn keep_lowest(&mut self, first: u64, fault: Fault) {
        if self.fault.as_ref().map_or(true, |(lowest, _)| first < *lowest) {
            self.fault = Some((first, fault));
        }
    }

    fn say_now_and_then(&mut self, plan: &Plan) {
        if self.said.elapsed() >= PROGRESS_EVERY {
            self.said = Instant::now();
            let (done, calls) = (self.tally.requests, self.tally.all_calls());
            eprintln!("fresh: {done} of {} requests compared, {calls} calls", plan.count);
        }
    }
}

fn compare_batch(plan: &Plan, first: u64, last: u64) -> Result<Tally, Fault> {
    let requests: Vec<Request> =
        (first..last).map(|index| fresh::request(plan.seed, index)).collect();
    let mut tally = Tally::default();
    let answers: Vec<String> =
        requests.iter().map(|request| own_answer(request, &mut tally)).collect();
    let input: Vec<u8> = requests.iter().flat_map(Request::to_bytes).collect();
    let (output, status) = run(&plan.program, &input)
        .map_err(|error| Fault::Died(format!("{} can't be run: {error}", plan.program[0])))?;
    let differing = first_differing(&answers, &output);
    if !status.success() {
        let before = differing.map_or(last - first, |place| place as u64);
        let place = first + before.min(last - first - 1);
        return Err(Fault::Died(format!("the program ended with {status}, at request {place}")));
    }
    match differing {
        None => Ok(tally),
        Some(place) => Err(shown(plan, first, &requests, &answers, &output, place)),
    }
}

fn own_answer(request: &Request, tally: &mut Tally) -> String {
    let answer = request.answer(tally).expect("made-up requests keep to the protocol");
    // An empty answer would compare as equal whatever the program does.
    assert!(!answer.is_empty(), "a made-up request without an answer");
    answer
}

/// The place of the first answer that the output doesn't have; the last one's if there is more.
fn first_differing(answers: &[String], output: &[u8]) -> Option<usize> {
    let mut rest = output;
    for (place, answer) in answers.iter().enumerate() {
        match rest.strip_prefix(answer.as_bytes()) {
            Some(after) => rest = after,
            None => return Some(place),
        }
    }
    (!rest.is_empty()).then(|| answers.len() - 1)
}

/// Put alone, the request's answer can be told from those after it.
fn shown(
    plan: &Plan,
    first: u64,
    requests: &[Request],
    answers: &[String],
    output: &[u8],
    place: usize,
) -> Fault {
    let index = first + place as u64;
    let ours = answers[place].clone().into_bytes();
    let input = requests[place].to_bytes();
    if let Ok((theirs, _)) = run(&plan.program, &input) {
        if theirs != ours {
            return Fault::Different(Difference { index, input, alone: true, ours, theirs });
        }
    }
    let before: usize = answers[..place].iter().map(String::len).sum();
    let input = requests[..=place].iter().flat_map(Request::to_bytes).collect();
    let theirs = output[before.min(output.len())..].to_vec();
    Fault::Different(Difference { index, input, alone: false, ours, theirs })
}

/// The whole output for the input, and how the program ended.
fn run(program: &[String], input: &[u8]) -> io::Result<(Vec<u8>, ExitStatus)> {
    let mut process = Command::new(&program[0])
        .args(&program[1..])
        .stdin(Stdio::piped())
        .stdout(Stdio::piped())
        .spawn()?;
    let mut stdin = process.stdin.take().expect("it is piped");
    let mut stdout = process.stdout.take().expect("it is piped");
    let mut output = Vec::new();
    thread::scope(|scope| {
        // Written beside the reading, or both ends could wait for each other. What a program that
        // stops reading leaves unread shows in its answers.
        scope.spawn(move || drop(stdin.write_all(input)));
        stdout.read_to_end(&mut output)
    })?;
    Ok((output, process.wait()?))
}
