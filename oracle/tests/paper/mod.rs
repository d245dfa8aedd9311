//! The rules of docs/RULES.md and docs/MESSAGES.md written a second time, over
//! row and item numbers instead of a tree, to be held against the Rust.

mod collect;
mod graph;
mod items;
mod rows;
mod unpin;

use graph::tier;
use oracle::judge::{Reason, Record};
use oracle::sheet::Sheet;

/// What the rules give, in the form of the oracle's answer.
pub struct Paper {
    pub sets: [Vec<usize>; 8],
    pub reasons: Vec<u16>,
    pub unpin: Vec<Option<Reason>>,
    pub order: Vec<u8>,
    pub tiers: Vec<u8>,
    pub collected: Vec<u16>,
    pub records: Vec<Record>,
}

pub fn paper(sheet: &Sheet) -> Paper {
    let mut records = Vec::new();
    let names = collect::names(sheet, &mut records);
    let collected = collect::rows(sheet);
    let names = collect::reasons(sheet, names, &collected);
    let order = graph::order(sheet, &names, &mut records);
    for &row in &collected {
        rows::check(sheet, &names, row, &mut records);
    }
    for item in 0..sheet.items.len() {
        items::check(sheet, &names, item, &mut records);
    }
    let members = |test: &dyn Fn(usize) -> bool| (0..256).filter(|&name| test(name)).collect();
    Paper {
        sets: [
            members(&|name| names.strct[name].is_some()),
            members(&|name| names.enm[name]),
            members(&|name| names.cxx[name]),
            members(&|name| names.rust[name]),
            members(&|name| names.alias[name]),
            members(&|name| names.untrusted[name].is_some()),
            members(&|name| names.reasons[name] > 0),
            members(&|name| graph::improper(sheet, &names, name)),
        ],
        reasons: names.reasons.to_vec(),
        unpin: unpin::reasons(sheet, &names, &collected),
        tiers: (0..sheet.items.len()).map(|item| tier(sheet, &names, item)).collect(),
        order,
        collected,
        records,
    }
}

/// A record at a place with one or two numbers.
pub fn record(message: u8, letter: char, first: usize, second: usize, detail: u16) -> Record {
    let (first, second) = (first as u16, second as u16);
    Record { message, letter: letter as u8, first, second, detail }
}
