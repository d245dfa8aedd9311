//! Where the CXX book's forbidden opaque targets and the source part: every
//! way to declare a name, every kind of row over it.

use crate::generate::opaque::{self, DECLARERS, TARGETS};
use crate::judge::{Answer, Outcome, judge};
use std::collections::BTreeMap;
use std::fmt::Write;

const CXX: usize = 1 << 2;
const RUST: usize = 1 << 3;
const KNOWN: usize = 1 | 1 << 1 | 1 << 4;

/// The opaque type that the book forbids in each of the first TARGETS, Box to
/// Array. The book lacks weak_ptr; it is read like shared_ptr
/// (docs/DECISIONS.md, E18).
const FORBIDDEN: [usize; 9] = [CXX, CXX, RUST, RUST, RUST, RUST, CXX, CXX, CXX];

/// One way to declare a name and one kind of row over it.
#[derive(Clone, PartialEq, Eq, PartialOrd, Ord)]
pub struct Shape {
    pub target: usize,
    /// A bit for each of DECLARERS.
    pub declared: usize,
    /// Whether a function takes the name by value too; None if it is all one.
    pub by_value: Option<bool>,
    pub book_forbids: bool,
    /// Messages that the source places at the row.
    pub messages: Vec<u8>,
    /// Whether message 1 comes with it in every order of the declarers.
    pub duplicate: bool,
}

impl Shape {
    pub fn parts(&self) -> bool {
        self.book_forbids == self.messages.is_empty()
    }

    /// Refused by a message about opaque types, not by one about atoms.
    pub fn opaque_message(&self) -> bool {
        self.messages.iter().any(|message| [4, 6, 8, 10, 13, 16, 23, 24].contains(message))
    }
}

/// Every shape with the names (atoms 0 to 15, and 24) that have it.
pub fn shapes() -> BTreeMap<Shape, Vec<u16>> {
    let mut shapes: BTreeMap<Shape, Vec<u16>> = BTreeMap::new();
    for name in (0..16).chain([24]) {
        for declared in 0..1 << DECLARERS.len() {
            for target in 0..FORBIDDEN.len() {
                for shape in both(name, target, declared) {
                    shapes.entry(shape).or_default().push(name);
                }
            }
        }
    }
    shapes
}

/// The shape without and with a use by value; one if they are alike.
fn both(name: u16, target: usize, declared: usize) -> Vec<Shape> {
    let without = shape(name, target, declared, false);
    let with = shape(name, target, declared, true);
    if without.messages == with.messages {
        return vec![Shape { by_value: None, ..without }];
    }
    vec![without, with]
}

fn shape(name: u16, target: usize, declared: usize, by_value: bool) -> Shape {
    let orders = orders(declared);
    let answers = orders.iter().map(|order| ask(name, target, order, by_value));
    let answers: Vec<(Vec<u8>, bool)> = answers.collect();
    let (messages, _) = answers[0].clone();
    assert!(answers.iter().all(|(others, _)| *others == messages));
    let forbidden = FORBIDDEN[target];
    Shape {
        target,
        declared,
        by_value: Some(by_value),
        book_forbids: declared & forbidden != 0 && declared & KNOWN == 0,
        messages,
        duplicate: answers.iter().all(|(_, duplicate)| *duplicate),
    }
}

/// The declarers of a set in every order.
fn orders(declared: usize) -> Vec<Vec<usize>> {
    if declared == 0 {
        return vec![Vec::new()];
    }
    let with_last = |last: usize| {
        let mut shorter = orders(declared & !(1 << last));
        shorter.iter_mut().for_each(|order| order.push(last));
        shorter
    };
    opaque::members(declared).into_iter().flat_map(with_last).collect()
}

/// The messages at the row, and whether there is a duplicate.
fn ask(name: u16, target: usize, order: &[usize], by_value: bool) -> (Vec<u8>, bool) {
    let draft = opaque::declared(name, target, order, by_value);
    let Outcome::Accepted(answer) = judge(&draft.bytes()) else {
        panic!("a refused sheet");
    };
    (at_row(&answer, opaque::TARGET_ROW), answer.records.iter().any(|record| record.message == 1))
}

fn at_row(answer: &Answer, row: u16) -> Vec<u8> {
    let here = answer.records.iter().filter(|r| r.letter == b'R' && r.first == row);
    here.map(|record| record.message).collect()
}

/// How the two part: a heading, and which of the parting shapes it is over.
const GROUPS: [(&str, fn(&Shape) -> bool); 3] = [
    ("the book forbids, the source lets stand", |shape| shape.book_forbids),
    ("the source refuses by 8, 10, 13, 16, 23 or 24, the book does not forbid", |shape| {
        shape.opaque_message()
    }),
    ("the source refuses by 5, 7, 9, 12, 15 or 17, the book does not forbid", |shape| {
        !shape.book_forbids && !shape.opaque_message()
    }),
];

/// The list of shapes where the two part.
pub fn text() -> String {
    let mut shapes: Vec<(Shape, Vec<u16>)> = shapes().into_iter().collect();
    let mut text = format!("shapes {}\n", count(&shapes));
    shapes.retain(|(shape, _)| shape.parts());
    for (heading, group) in GROUPS {
        let (in_group, rest) = shapes.into_iter().partition(|(shape, _)| group(shape));
        shapes = rest;
        writeln!(text, "\n{heading}: shapes {}", count(&in_group)).unwrap();
        for (shape, names) in &in_group {
            line(&mut text, shape, names);
        }
    }
    text
}

fn count(shapes: &[(Shape, Vec<u16>)]) -> usize {
    shapes.iter().map(|(_, names)| names.len()).sum()
}

fn line(text: &mut String, shape: &Shape, names: &[u16]) {
    let declarers = opaque::members(shape.declared).into_iter();
    let declarers: Vec<&str> = declarers.map(|bit| DECLARERS[bit]).collect();
    let declared = match declarers[..] {
        [] => "nothing".to_owned(),
        _ => declarers.join("+"),
    };
    let value = match shape.by_value {
        None => "",
        Some(false) => ", not by value",
        Some(true) => ", also by value",
    };
    let duplicate = if shape.duplicate { ", always with message 1" } else { "" };
    let label = TARGETS[shape.target].0;
    let messages = &shape.messages;
    writeln!(
        text,
        "{label} of {declared}{value}: messages {messages:?}{duplicate}, names {}",
        ranges(names)
    )
    .unwrap();
}

/// 0-13 24
fn ranges(names: &[u16]) -> String {
    let runs = names.chunk_by(|a, b| a + 1 == *b);
    let run = |run: &[u16]| match run {
        [one] => one.to_string(),
        more => format!("{}-{}", more[0], more[more.len() - 1]),
    };
    runs.map(run).collect::<Vec<_>>().join(" ")
}
