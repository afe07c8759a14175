use std::io::Write;
use std::process::{Command, Stdio};

fn run(input: &[u8]) -> String {
    let mut program = Command::new(env!("CARGO_BIN_EXE_verdicts2"))
        .stdin(Stdio::piped())
        .stdout(Stdio::piped())
        .spawn()
        .unwrap();
    // The program stops reading one byte past the limit, so a longer input may find a closed pipe.
    let _ = program.stdin.take().unwrap().write_all(input);
    let output = program.wait_with_output().unwrap();
    assert!(output.status.success());
    String::from_utf8(output.stdout).unwrap()
}

#[test]
fn prints_the_rows_of_a_graph() {
    let input = b"G,2,2,1,,\r\nN,0,K,1,E,0\r\nN,1,R,,,0\r\nE,0,1,T,,\r\n";
    assert_eq!(run(input), "node,denied,granted,verdict\r\n0,1,0,2\r\n1,0 1,,\r\n");
}

#[test]
fn prints_a_refusal() {
    assert_eq!(run(b""), "refused,11,1\r\n");
    assert_eq!(run(b"G,1,1,0,,\r\nN,0,R,,,\r\n"), "refused,4,0\r\n");
}

#[test]
fn tells_a_text_of_65536_bytes_from_a_longer_one() {
    assert_eq!(run(&[b'x'; 65_536]), "refused,11,1\r\n");
    assert_eq!(run(&[b'x'; 65_537]), "refused,12,0\r\n");
    assert_eq!(run(&[b'x'; 200_000]), "refused,12,0\r\n");
}
