//! The two texts of an answer: what the program `report` prints, and all.

use crate::judge::{Answer, Outcome, Reason, Record, SETS, Set};
use std::fmt::Write;

/// The program `report` prints this many records at most.
const SHOWN: usize = 512;

pub fn report(outcome: &Outcome) -> String {
    match outcome {
        Outcome::Refused(refusal) => refused(refusal),
        Outcome::TooLarge => "too large\n".to_owned(),
        Outcome::Accepted(answer) => {
            let tiers = answer.order.iter().map(|&item| answer.tiers[item as usize]);
            let mut text = format!("accepted {}\n", answer.records.len());
            text += &line("order", &answer.order);
            text += &line("tiers", tiers);
            text += &line("improper", members(&answer.sets[7]));
            for record in answer.records.iter().take(SHOWN) {
                writeln!(text, "{}", one(record)).unwrap();
            }
            text
        }
    }
}

pub fn full(outcome: &Outcome) -> String {
    match outcome {
        Outcome::Refused(refusal) => refused(refusal),
        Outcome::TooLarge => "too large\n".to_owned(),
        Outcome::Accepted(answer) => full_answer(answer),
    }
}

fn full_answer(answer: &Answer) -> String {
    let mut text = format!("accepted {}\n", answer.records.len());
    for (name, set) in SETS.iter().zip(&answer.sets) {
        let size = size(set).to_string();
        text += &line(&format!("set {name} {size}"), members(set));
    }
    for (name, count) in answer.reasons.iter().enumerate() {
        if *count > 0 {
            writeln!(text, "reasons {name} {count}").unwrap();
        }
    }
    for (name, reason) in answer.required_unpin.iter().enumerate() {
        match reason {
            None => {}
            Some(Reason::Row(row)) => writeln!(text, "unpin {name} row {row}").unwrap(),
            Some(Reason::Item(item)) => writeln!(text, "unpin {name} item {item}").unwrap(),
        }
    }
    text += &line("order", &answer.order);
    let mut structs = answer.order.clone();
    structs.sort();
    for item in structs {
        writeln!(text, "tier {item} {}", answer.tiers[item as usize]).unwrap();
    }
    text += &line("collected", &answer.collected);
    for record in &answer.records {
        writeln!(text, "record {}", one(record)).unwrap();
    }
    text
}

fn refused(refusal: &crate::reader::Refusal) -> String {
    format!("refused {} at {}\n", refusal.number, refusal.position)
}

fn line<T: ToString>(word: &str, entries: impl IntoIterator<Item = T>) -> String {
    let mut text = word.to_owned();
    for entry in entries {
        text.push(' ');
        text += &entry.to_string();
    }
    text + "\n"
}

/// Message, place with its one or two numbers, detail.
pub fn one(record: &Record) -> String {
    let Record { message, letter, first, second, detail } = record;
    let place = *letter as char;
    match place {
        'R' | 'I' | 'O' => format!("{message} {place} {first} {detail}"),
        _ => format!("{message} {place} {first} {second} {detail}"),
    }
}

pub fn members(set: &Set) -> Vec<usize> {
    (0..256).filter(|name| set[name / 64] >> (name % 64) & 1 == 1).collect()
}

pub fn size(set: &Set) -> u32 {
    set.iter().map(|word| word.count_ones()).sum()
}
