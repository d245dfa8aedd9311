//! docs/MESSAGES.md against the Rust: each message's number, function, place,
//! detail, text, and the sheet that gets it.

mod page;

use oracle::generate::PROFILES;
use oracle::judge::{Outcome, Record, judge, with_texts};
use oracle::print;
use std::collections::{BTreeMap, BTreeSet};

const PAGE: &str = "MESSAGES.md";
const HEADER: [&str; 8] =
    ["No.", "Function", "Place", "Detail", "When", "Text", "A small sheet", "Record"];
const SOURCES: &str = concat!(env!("CARGO_MANIFEST_DIR"), "/../docs/src/syntax");

struct Message {
    number: u8,
    function: String,
    letter: String,
    /// 0, or a word for what it counts.
    detail: String,
    text: String,
    sheet: Vec<u8>,
    record: String,
}

fn code(cell: &str) -> String {
    page::code(cell).unwrap_or_else(|| panic!("no marks: {cell}"))
}

fn messages() -> Vec<Message> {
    let read = |line: Vec<String>| Message {
        number: line[0].parse().expect("a number"),
        function: code(&line[1]),
        letter: line[2].clone(),
        detail: line[3].clone(),
        text: code(&line[5]),
        sheet: page::sheet(&code(&line[6])),
        record: code(&line[7]),
    };
    page::lines(PAGE, &HEADER).into_iter().map(read).collect()
}

/// What each `…` of a pattern stands for in a text, if the text fits.
fn parts(pattern: &str, text: &str) -> Option<Vec<String>> {
    let Some((begin, rest)) = pattern.split_once('…') else {
        return (pattern == text).then(Vec::new);
    };
    let text = text.strip_prefix(begin)?;
    let cuts = (0..=text.len()).filter(|&at| text.is_char_boundary(at));
    cuts.map(|at| text.split_at(at)).find_map(|(part, after)| {
        let mut all = vec![part.to_owned()];
        all.extend(parts(rest, after)?);
        Some(all)
    })
}

/// The record of a sheet that is printed so, with its text.
fn told(sheet: &[u8], record: &str) -> (Record, String) {
    assert!(matches!(judge(sheet), Outcome::Accepted(_)), "not accepted: the sheet of {record}");
    let found = with_texts(sheet).into_iter().find(|(one, _)| print::one(one) == record);
    found.unwrap_or_else(|| panic!("the sheet of {record} has no such record"))
}

#[test]
fn each_number_once_and_in_order() {
    let numbers: Vec<u8> = messages().iter().map(|message| message.number).collect();
    assert_eq!(numbers, (1..=58).collect::<Vec<u8>>());
}

#[test]
fn sheets_have_their_records() {
    for message in messages() {
        let (record, text) = told(&message.sheet, &message.record);
        let number = message.number;
        assert_eq!(record.message, number);
        assert_eq!((record.letter as char).to_string(), message.letter, "message {number}");
        assert!(parts(&message.text, &text).is_some(), "message {number}: {text}");
    }
}

/// A text fits its own message alone; 54 and 55 share theirs.
#[test]
fn texts_tell_messages_apart() {
    let messages = messages();
    for message in &messages {
        let (_, text) = told(&message.sheet, &message.record);
        let fitting = messages.iter().filter(|other| parts(&other.text, &text).is_some());
        let fitting: Vec<u8> = fitting.map(|other| other.number).collect();
        match message.number {
            54 | 55 => assert_eq!(fitting, [54, 55]),
            number => assert_eq!(fitting, [number]),
        }
    }
}

/// The functions at the margin of a file that hold the calls, in text order.
fn functions(file: &str, call: &str) -> Vec<String> {
    let text = std::fs::read_to_string(format!("{SOURCES}/{file}")).expect(file);
    let mut inside = String::new();
    let mut found = Vec::new();
    for line in text.lines() {
        let line_of = line.strip_prefix("pub(crate) ").unwrap_or(line);
        if let Some(rest) = line_of.strip_prefix("fn ") {
            inside = rest.split(['(', '<']).next().unwrap_or("").to_owned();
        }
        found.extend(line.contains(call).then(|| inside.clone()));
    }
    found
}

#[test]
fn functions_hold_the_calls() {
    let files = ["types.rs", "toposort.rs", "check.rs"];
    let held: Vec<String> = files.iter().flat_map(|file| functions(file, "cx.error(")).collect();
    assert_eq!(held.len(), 58);
    for message in messages() {
        let number = message.number;
        assert_eq!(message.function, held[number as usize - 1], "message {number}");
    }
}

/// Of every record of a run: its letter, a detail other than 0 only where the
/// page has a word for it, and its text. Each `…` stands for several parts.
#[test]
fn generated_records_are_as_the_page_says() {
    let messages = messages();
    let mut details: BTreeMap<u8, BTreeSet<u16>> = BTreeMap::new();
    let mut varying: BTreeMap<(u8, usize), BTreeSet<String>> = BTreeMap::new();
    let large = ["items", "rows", "chains", "full-many", "full-none", "full-mixed"];
    for profile in PROFILES.iter().filter(|profile| !large.contains(&profile.name)) {
        for (record, text) in (0..150).flat_map(|number| with_texts(&profile.sheet(3, number))) {
            let number = record.message;
            let message = &messages[number as usize - 1];
            assert_eq!((record.letter as char).to_string(), message.letter, "message {number}");
            details.entry(number).or_default().insert(record.detail);
            let parts = parts(&message.text, &text);
            let parts = parts.unwrap_or_else(|| panic!("message {number}: {text}"));
            for (place, part) in parts.into_iter().enumerate() {
                varying.entry((number, place)).or_default().insert(part);
            }
        }
    }
    for Message { number, detail, .. } in &messages {
        let met: Vec<u16> = details[number].iter().copied().collect();
        match detail.as_str() {
            "0" => assert_eq!(met, [0], "message {number}"),
            "branch" => assert_eq!(met, occurring(), "message {number}"),
            _ => assert_ne!(met, [0], "message {number}"),
        }
    }
    for ((number, part), texts) in varying {
        assert!(texts.len() > 1, "message {number}, part {part} is always {texts:?}");
    }
}

fn branches() -> Vec<Vec<String>> {
    page::lines(PAGE, &["Branch", "Row", "Text", "A small sheet", "Record"])
}

/// The branches of `describe` that have a sheet.
fn occurring() -> Vec<u16> {
    let with_sheet = branches().into_iter().filter(|line| line[3] != "cannot occur");
    with_sheet.map(|line| line[0].parse().expect("a branch")).collect()
}

#[test]
fn branches_of_describe() {
    let source = std::fs::read_to_string(format!("{SOURCES}/check.rs")).expect("check.rs");
    let (_, describe) = source.split_once("fn describe(").expect("describe");
    let text_of = |line: &str| match line.split('"').nth(1) {
        Some(text) => Some(text.to_owned()),
        None => line.contains("ident.rust.to_string()").then(|| "…".to_owned()),
    };
    let texts: Vec<String> = describe.lines().filter_map(text_of).collect();
    assert_eq!((texts.len(), branches().len()), (21, 21));
    for (line, (branch, text)) in branches().iter().zip((1..).zip(&texts)) {
        assert_eq!(line[0], branch.to_string());
        assert_eq!(code(&line[2]), *text, "branch {branch}");
        if line[3] == "cannot occur" {
            continue;
        }
        let (record, said) = told(&page::sheet(&code(&line[3])), &code(&line[4]));
        assert_eq!((record.message, record.detail), (32, branch));
        assert_eq!(said, format!("using {text} by value is not supported"));
    }
}

/// The other details that are not always 0.
#[test]
fn details() {
    let mut words: Vec<String> = Vec::new();
    for line in page::lines(PAGE, &["No.", "Detail", "A small sheet", "Record"]) {
        words.extend(line[0].split(", ").map(str::to_owned));
        if !line[2].is_empty() {
            let (record, _) = told(&page::sheet(&code(&line[2])), &code(&line[3]));
            assert_eq!(record.message.to_string(), line[0]);
            assert_ne!(record.detail, 0);
        }
    }
    words.sort();
    let counted = messages().into_iter().filter(|message| message.detail != "0");
    assert_eq!(words, counted.map(|message| message.number.to_string()).collect::<Vec<_>>());
}
