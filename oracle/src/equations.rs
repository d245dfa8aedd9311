//! The oracle's answers as equations on the definitions of crates/rules, one for each sheet, for the prover to check by computing both sides.

use crate::judge::{Answer, Outcome, Reason, Record, judge};
use std::fmt::Write;

/// Above this many bytes a sheet takes the prover too many steps.
pub const MOST_BYTES: usize = 600;

/// A file of the prover's language with an equation for each of the numbered sheets.
pub fn file(sheets: &[(usize, Vec<u8>)]) -> String {
    let mut text = HEAD.to_owned();
    for (number, sheet) in sheets {
        equation(&mut text, *number, sheet);
    }
    text
}

const HEAD: &str = "\
-- What the original Rust answers, held against the definitions. Written by `equations`.
use Rattle.std.specs.Prelude.{ℕ, ◌≡◌, refl, List, [], ◌∷◌, ◌++◌}
use Rattle.rules.specs.declared.Place.TheVariants.{R, G, I, F, A, O, D, L}
use Rattle.rules.specs.declared.Fault.TheVariants.{ShortScratch, LongSheet, ShortSheet, TooMany, Misplaced, BadValue, BadRow, EqualRow}
use Rattle.rules.specs.declared.UnpinReason.TheVariants.{Row, Item}
use Rattle.rules.specs.Diagnostics.{tell}
use Rattle.rules.specs.Answer.{refused}
use Rattle.rules.specs.Table.{outcome_of, blanks, scratch}
use Rattle.rules.specs.Computed.{computed, collected}
";

/// The definitions' names of refusals 1 to 8.
const FAULTS: [&str; 8] = ["ShortScratch", "LongSheet", "ShortSheet", "TooMany", "Misplaced", "BadValue", "BadRow", "EqualRow"];

fn equation(text: &mut String, number: usize, sheet: &[u8]) {
    let bytes = list(sheet);
    let expected = match judge(sheet) {
        Outcome::TooLarge => return,
        Outcome::Refused(refusal) => {
            let (fault, position) = (FAULTS[usize::from(refusal.number) - 1], refusal.position);
            let refused = format!("refused (record {{ fault = {fault}; position = {position} }})");
            (0, format!("record {{ answer = {refused}; list = []; scratch = scratch }}"))
        }
        Outcome::Accepted(answer) => {
            let rows = list(&answer.collected);
            let places = answer.records.len() + 1;
            write!(text, "\nrows-{number} : collected ({bytes}) ≡ {rows}\nunfolding collected\nrows-{number} = refl\n").unwrap();
            (places, format!("outcome_of {places} (record {{ {} }})", fields(&answer)))
        }
    };
    let (places, outcome) = expected;
    write!(text, "\nsheet-{number} : computed ({bytes}) scratch (blanks {places}) ≡ {outcome}\n").unwrap();
    write!(text, "unfolding computed outcome_of refused\nsheet-{number} = refl\n").unwrap();
}

fn fields(answer: &Answer) -> String {
    let sets: Vec<String> = answer.sets.iter().map(|set| format!("({})", list(&names(set)))).collect();
    let reasons = answer.reasons.iter().enumerate().filter(|(_, count)| **count > 0);
    let reasons: Vec<String> = reasons.map(|(name, count)| format!("({name}, {count})")).collect();
    let unpin: Vec<String> = answer.unpin.iter().enumerate().filter_map(|(name, reason)| Some(unpin(name, (*reason)?))).collect();
    let records: Vec<String> = answer.records.iter().map(record).collect();
    format!(
        "name_sets = {}; reasons = {}; unpin = {}; order = {}; tiers = {}; report = {}",
        list(&sets),
        list(&reasons),
        list(&unpin),
        list(&answer.order),
        list(&answer.tiers),
        if records.is_empty() { "[]".to_owned() } else { records.join(" ++ ") },
    )
}

fn names(set: &[u64; 4]) -> Vec<u16> {
    (0..256).filter(|name| set[usize::from(name / 64)] >> (name % 64) & 1 == 1).collect()
}

fn unpin(name: usize, reason: Reason) -> String {
    match reason {
        Reason::Row(row) => format!("({name}, Row {row})"),
        Reason::Item(item) => format!("({name}, Item {item})"),
    }
}

fn record(record: &Record) -> String {
    let Record { message, letter, first, second, detail } = *record;
    let letter = char::from(letter);
    let second = if "RIO".contains(letter) { String::new() } else { format!(" {second}") };
    format!("tell {message} ({letter} {first}{second}) {detail}")
}

fn list<T: ToString>(entries: &[T]) -> String {
    let mut text = String::new();
    for entry in entries {
        text.push_str(&entry.to_string());
        text.push_str(" ∷ ");
    }
    text + "[]"
}
