//! Every message's number, told by its text, is that of the source line which
//! called: messages 3 to 58 are the `cx.error` calls of check.rs in order.

use oracle::generate::PROFILES;
use oracle::judge::{Outcome, judge, with_lines};
use std::collections::BTreeSet;

const DIRECTORY: &str = concat!(env!("CARGO_MANIFEST_DIR"), "/../docs/src/syntax");

/// Lines of a file that hold this call.
fn calls(file: &str, call: &str) -> Vec<u32> {
    let text = std::fs::read_to_string(format!("{DIRECTORY}/{file}")).expect(file);
    let lines = text.lines().zip(1..).filter(|(line, _)| line.contains(call));
    lines.map(|(_, number)| number).collect()
}

/// File and line of each message, 1 to 58.
fn expected() -> Vec<(String, u32)> {
    let mut lines = Vec::new();
    for file in ["types.rs", "toposort.rs", "check.rs"] {
        lines.extend(calls(file, "cx.error(").into_iter().map(|line| (file.to_owned(), line)));
    }
    assert_eq!(lines.len(), 58);
    lines
}

/// Sheets with few records that hold a message not met before.
fn sheets() -> Vec<Vec<u8>> {
    let mut met = BTreeSet::new();
    let mut chosen = Vec::new();
    for number in 0..400 {
        for profile in PROFILES.iter().filter(|profile| !profile.name.starts_with("full")) {
            let sheet = profile.sheet(11, number);
            let Outcome::Accepted(answer) = judge_small(&sheet) else {
                continue;
            };
            let messages: Vec<u8> = answer.records.iter().map(|record| record.message).collect();
            if messages.len() <= 20 && messages.iter().any(|message| !met.contains(message)) {
                met.extend(messages);
                chosen.push(sheet);
            }
        }
        if met.len() == 58 {
            break;
        }
    }
    assert_eq!(met.len(), 58);
    chosen
}

/// Backtraces are slow, so sheets are looked at by size first.
fn judge_small(sheet: &[u8]) -> Outcome {
    if sheet.len() > 400 { Outcome::TooLarge } else { judge(sheet) }
}

#[test]
fn numbers_are_source_lines() {
    let expected = expected();
    let mut met = BTreeSet::new();
    for sheet in sheets() {
        for (record, line) in with_lines(&sheet) {
            assert_eq!(line, expected[record.message as usize - 1], "message {}", record.message);
            met.insert(record.message);
        }
    }
    assert_eq!(met.len(), 58);
}
