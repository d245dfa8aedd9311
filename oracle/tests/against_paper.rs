//! The Rust against the rules (docs/RULES.md, docs/MESSAGES.md) written a
//! second time: all parts of the answer, on the generator's sheets, and the
//! properties of rule 3.
//!
//! PAPER_SHEETS sets how many sheets of each small profile are compared,
//! PAPER_SEED the seed.

mod paper;

use oracle::generate::PROFILES;
use oracle::judge::{Answer, Outcome, judge};
use oracle::sheet::{Item, Sheet};
use oracle::{print, reader, unpin};

fn compare(sheet: &Sheet, answer: &Answer, what: &str) {
    let paper = paper::paper(sheet);
    for (set, expected) in answer.sets.iter().zip(&paper.sets) {
        assert_eq!(print::members(set), *expected, "{what}");
    }
    assert_eq!(answer.reasons[..], paper.reasons, "{what}");
    assert_eq!(answer.unpin[..], paper.unpin, "{what}");
    assert_eq!(answer.order, paper.order, "{what}");
    assert_eq!(answer.tiers, paper.tiers, "{what}");
    assert_eq!(answer.collected, paper.collected, "{what}");
    assert_eq!(answer.records, paper.records, "{what}");
}

/// Each struct once; after each that it holds exactly without a cycle;
/// message 2 exactly with one. (The improper set over chains is `compare`'s.)
fn rule_3(sheet: &Sheet, answer: &Answer, what: &str) {
    let is_struct = |&item: &usize| matches!(sheet.items[item], Item::Struct { .. });
    let structs: Vec<usize> = (0..sheet.items.len()).filter(is_struct).collect();
    let mut sorted: Vec<usize> = answer.order.iter().map(|&item| item as usize).collect();
    sorted.sort();
    assert_eq!(sorted, structs, "{what}");
    let place = |item: usize| answer.order.iter().position(|&other| other as usize == item);
    let edges = oracle::tiers::edges(sheet);
    let after = |&item: &usize| edges[item].iter().all(|&held| place(held) < place(item));
    let cyclic = answer.tiers.contains(&255);
    assert_eq!(structs.iter().all(after), !cyclic, "{what}");
    assert_eq!(answer.records.iter().any(|record| record.message == 2), cyclic, "{what}");
    assert!(answer.records.len() < 32_768, "{what}");
}

/// Sheets with a reason to be Unpin of each kind, for a name that an alias
/// bears and for one that a CxxType alone does.
#[derive(Default)]
struct Asked {
    alias: [u64; 3],
    cxx_type: [u64; 3],
}

/// Of a name that an alias bears the Rust says what is said of every C++
/// name, and of other names nothing.
fn required_unpin(sheet: &Sheet, answer: &Answer, asked: &mut Asked, what: &str) {
    assert_eq!(answer.required_unpin, unpin::of_aliases(answer), "{what}");
    let (mut alias, mut cxx_type) = ([false; 3], [false; 3]);
    for (reason, rust) in answer.unpin.iter().zip(answer.required_unpin) {
        if let Some(reason) = *reason {
            let kinds = if rust.is_some() { &mut alias } else { &mut cxx_type };
            kinds[unpin::kind(sheet, reason)] = true;
        }
    }
    for kind in 0..3 {
        asked.alias[kind] += alias[kind] as u64;
        asked.cxx_type[kind] += cxx_type[kind] as u64;
    }
}

fn setting(name: &str, usual: u64) -> u64 {
    std::env::var(name).ok().and_then(|value| value.parse().ok()).unwrap_or(usual)
}

#[test]
fn rust_against_paper() {
    let (wanted, seed) = (setting("PAPER_SHEETS", 200), setting("PAPER_SEED", 5));
    let (mut compared, mut asked) = (0, Asked::default());
    for profile in &PROFILES {
        let large = ["items", "rows", "chains", "full-many", "full-none", "full-mixed"];
        let count = if large.contains(&profile.name) { wanted / 60 } else { wanted };
        for number in 0..count {
            let sheet = profile.sheet(seed, number);
            let Outcome::Accepted(answer) = judge(&sheet) else {
                continue;
            };
            let what = format!("profile {} seed {seed} number {number}", profile.name);
            let sheet = reader::read(&sheet).expect("an accepted sheet");
            compare(&sheet, &answer, &what);
            rule_3(&sheet, &answer, &what);
            required_unpin(&sheet, &answer, &mut asked, &what);
            compared += 1;
        }
    }
    println!("{compared} accepted sheets compared");
    for (kind, word) in unpin::KINDS.iter().enumerate() {
        let (alias, cxx_type) = (asked.alias[kind], asked.cxx_type[kind]);
        println!("Unpin by {word}: {alias} sheets with an alias, {cxx_type} with a CxxType alone");
        assert!(alias > 0 && cxx_type > 0, "no reason to be Unpin by {word}");
    }
}
