use std::path::PathBuf;
use std::process::{Command, Output};

const FRESH: &str = env!("CARGO_BIN_EXE_fresh");
const REQUESTS2: &str = env!("CARGO_BIN_EXE_requests2");

/// A place of its own for the files that a difference leaves.
fn place(name: &str) -> PathBuf {
    let place = PathBuf::from(env!("CARGO_TARGET_TMPDIR")).join(name);
    let _ = std::fs::remove_dir_all(&place);
    std::fs::create_dir_all(&place).unwrap();
    place
}

fn fresh(name: &str, arguments: &[&str]) -> Output {
    Command::new(FRESH).args(arguments).current_dir(place(name)).output().unwrap()
}

fn compare(name: &str, count: &str, program: &[&str]) -> (Option<i32>, String) {
    let output = fresh(name, &[&["compare", "1", count], program].concat());
    (output.status.code(), String::from_utf8(output.stdout).unwrap())
}

/// Compares with our own answers after a shell command has changed them.
fn compare_changed(name: &str, change: &str) -> (Option<i32>, String) {
    compare(name, "1100", &["sh", "-c", &format!("'{REQUESTS2}' | {change}")])
}

fn assert_difference((status, said): (Option<i32>, String), index: &str) {
    assert_eq!(status, Some(1), "{said}");
    assert!(said.contains(&format!("difference at request {index}")), "{said}");
    assert!(!said.contains("no difference"), "{said}");
}

#[test]
fn equal_answers() {
    let (status, said) = compare("equal", "1100", &[REQUESTS2]);
    assert_eq!(status, Some(0), "{said}");
    assert!(said.starts_with("requests 1100\n"), "{said}");
    assert!(said.ends_with("\nno difference\n"), "{said}");
}

#[test]
fn a_changed_byte_is_a_difference() {
    let change = "LC_ALL=C sed 's/^passes 7$/passes 8/'";
    let told = compare_changed("changed", change);
    let (_, said) = &told;
    assert!(said.contains("ours:   passes 7") && said.contains("theirs: passes 8"), "{said}");
    assert_difference(told, "");
}

#[test]
fn the_stored_request_shows_the_difference() {
    let change = "LC_ALL=C sed 's/^fails 2$/fails 1/'";
    assert_difference(compare_changed("stored", change), "");
    let place = PathBuf::from(env!("CARGO_TARGET_TMPDIR")).join("stored");
    let stored: Vec<PathBuf> =
        std::fs::read_dir(place).unwrap().map(|entry| entry.unwrap().path()).collect();
    let read = |ending: &str| {
        let path = stored.iter().find(|path| path.extension().unwrap() == ending).unwrap();
        std::fs::read(path).unwrap()
    };
    let mut tally = second::tally::Tally::default();
    let requests = second::requests::split(&read("request")).unwrap();
    assert_eq!(requests.len(), 1);
    assert_eq!(requests[0].answer(&mut tally).unwrap().into_bytes(), read("ours"));
    assert_ne!(read("ours"), read("theirs"));
}

#[test]
fn the_very_last_byte_counts() {
    assert_difference(compare_changed("less", "head -c -1"), "499 ");
    assert_difference(compare_changed("more", "(cat; echo written)"), "499 ");
}

#[test]
fn nothing_compared_is_no_success() {
    assert_difference(compare("silent", "600", &["sh", "-c", "cat > /dev/null"]), "0 ");
    assert_difference(compare("deaf", "600", &["true"]), "0 ");
    assert_eq!(compare("none", "0", &[REQUESTS2]).0, Some(2));
}

#[test]
fn a_program_that_dies() {
    assert_eq!(compare("dies", "600", &["false"]).0, Some(2));
    assert_eq!(compare("missing", "600", &["./there-is-no-such-program"]).0, Some(2));
    let answers_and_dies = format!("'{REQUESTS2}'; exit 3");
    let (status, said) = compare("late", "600", &["sh", "-c", &answers_and_dies]);
    assert_eq!(status, Some(2), "{said}");
    assert!(!said.contains("no difference"), "{said}");
}

#[test]
fn written_requests_are_those_compared() {
    let written = fresh("written", &["write", "5", "40"]);
    assert_eq!(written.status.code(), Some(0));
    let expected: Vec<u8> =
        (0..40).flat_map(|index| second::fresh::request(5, index).to_bytes()).collect();
    assert_eq!(written.stdout, expected);
}

#[test]
fn wrong_arguments() {
    for arguments in [&[][..], &["compare", "1", "2"], &["write", "1"], &["write", "x", "1"]] {
        assert_eq!(fresh("arguments", arguments).status.code(), Some(2));
    }
}
