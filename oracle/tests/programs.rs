//! The programs themselves: standard input, standard output, batches.

use oracle::{batch, proved};
use std::io::Write;
use std::process::{Command, Stdio};

fn run(program: &str, args: &[&str], input: &[u8]) -> Vec<u8> {
    let mut command = Command::new(program);
    let command = command.args(args).stdin(Stdio::piped()).stdout(Stdio::piped());
    let mut child = command.spawn().expect(program);
    child.stdin.take().expect("a pipe").write_all(input).expect("input");
    let output = child.wait_with_output().expect(program);
    assert!(output.status.success());
    output.stdout
}

fn oracle(args: &[&str], input: &[u8]) -> String {
    String::from_utf8(run(env!("CARGO_BIN_EXE_oracle"), args, input)).expect("a text")
}

const WORKED: &str = "accepted 2\norder 1 0\ntiers 255 255\nimproper\n2 F 1 0 0\n2 F 0 0 0\n";

#[test]
fn one_sheet() {
    assert_eq!(oracle(&[], &proved::worked()), WORKED);
    assert_eq!(oracle(&[], &[0; 32_769]), "refused 2 at 0\n");
    assert_eq!(oracle(&[], &[]), "refused 3 at 0\n");
}

#[test]
fn full_answer() {
    let expected = "accepted 2
set structs 2 24 25
set enums 0
set cxx 0
set rust 0
set aliases 0
set untrusted 0
set required-trivial 0
set improper 0
order 1 0
tier 0 255
tier 1 255
collected 0
record 2 F 1 0 0
record 2 F 0 0 0
";
    assert_eq!(oracle(&["--full"], &proved::worked()), expected);
}

/// Reasons to be Unpin, as the Rust has them: of an alias, by row or item, and
/// of no CxxType.
#[test]
fn full_answer_with_reasons() {
    let unpin = |sheet: &[u8]| -> Vec<String> {
        let text = oracle(&["--full"], sheet);
        text.lines().filter(|line| line.starts_with("unpin")).map(str::to_owned).collect()
    };
    let sheets = proved::handles();
    assert_eq!(unpin(&sheets[0]), [""; 0]);
    assert_eq!(unpin(&sheets[1]), ["unpin 27 row 1"]);
    assert_eq!(unpin(&sheets[2]), ["unpin 27 item 2"]);
    let text = oracle(&["--full"], &sheets[1]);
    assert!(text.contains("\nreasons 27 1\nunpin 27 row 1\norder\n"), "{text}");
}

#[test]
fn batches() {
    let mut input = Vec::new();
    batch::push(&mut input, &proved::worked());
    batch::push(&mut input, &[0; 3]);
    let expected = format!("{WORKED}--\nrefused 3 at 0\n--\n");
    assert_eq!(oracle(&["--batch"], &input), expected);
    assert_eq!(oracle(&["--batch", "--full"], &[]), "");
}

/// `report` prints 512 records at most, and the whole total.
#[test]
fn at_most_512_records() {
    let args = ["--profile", "full-many", "--seed", "1", "--count", "1"];
    let made = run(env!("CARGO_BIN_EXE_generate"), &args, &[]);
    let sheet = batch::split(&made).expect("a batch")[0];
    let text = oracle(&[], sheet);
    assert_eq!(text.lines().count(), 4 + 512);
    let total = text.lines().next().and_then(|line| line.strip_prefix("accepted "));
    let full = oracle(&["--full"], sheet);
    let records = full.lines().filter(|line| line.starts_with("record ")).count();
    assert_eq!(total, Some(records.to_string().as_str()));
}

/// The oracle against itself agrees; against a program that prints nothing it
/// does not.
#[test]
fn against_a_program() {
    let sheets = [&proved::worked()[..], &[0; 32_769], &[0; 3]];
    let same = oracle::against::compare(env!("CARGO_BIN_EXE_oracle"), &sheets).expect("a run");
    assert_eq!((same.compared, same.differing.len()), (3, 0));
    let other = oracle::against::compare("true", &sheets).expect("a run");
    assert_eq!((other.compared, other.differing.len()), (3, 3));
}
