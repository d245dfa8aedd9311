//! Declarers of one name, targets, functions, derives.

use super::draft::{Draft, list};
use super::random::{self, Style};
use super::rng::Rng;
use crate::sheet::NONE;

/// The declarers of a name: struct, enum, CxxType untrusted and trusted,
/// RustType, alias, then functions of each kind and form.
const DECLARERS: usize = 12;

/// `row` is a struct's field; an enum's repr is row 0, which is a name.
pub fn declare(draft: &mut Draft, which: usize, name: u16, row: u16) {
    match which {
        0 => draft.strct(name, &[row]),
        1 => draft.item(&[&[2, name, 0, 0, 0, 0, 2, 0]]),
        2 => draft.item(&[&[3, name, 0, 0, 0]]),
        3 => draft.item(&[&[3, name, 0, 0, 1]]),
        4 => draft.item(&[&[4, name, 0, 0, 0]]),
        5 => draft.item(&[&[7, name, 0, 0]]),
        _ => {
            let kind = 5 + (which % 2) as u16;
            let form: &[u16] = match (which - 6) / 2 {
                0 => &[0],
                1 => &[1, 25],
                _ => &[2, 25, 0],
            };
            draft.item(&[&[kind, name, 0, 0], form, &[NONE, 0]]);
        }
    }
}

/// Names that the cases go through: free, an atom, a reserved one, Self.
const NAMES: [u16; 4] = [24, 2, 20, 23];

pub fn pairs(_: &mut Rng, number: u64) -> Vec<u8> {
    let case = number as usize;
    let name = NAMES[case / (DECLARERS * DECLARERS) % NAMES.len()];
    let mut draft = Draft::new();
    let row = draft.name(2);
    declare(&mut draft, case % DECLARERS, name, row);
    declare(&mut draft, case / DECLARERS % DECLARERS, name, row);
    draft.bytes()
}

pub fn triples(rng: &mut Rng, _: u64) -> Vec<u8> {
    let name = rng.pick(&NAMES);
    let mut draft = Draft::new();
    let plain = draft.name(name);
    let byte = draft.name(2);
    let rows = [
        plain,
        byte,
        draft.row(&[1, plain]),
        draft.row(&[10, rng.below(2) as u16, plain]),
        draft.row(&[7, rng.below(4) as u16, plain]),
        draft.row(&[rng.from_to(2, 6) as u16, plain]),
        draft.row(&[11, 3, plain]),
    ];
    for _ in 0..rng.from_to(2, 5) {
        let row = if rng.one_in(2) { byte } else { rng.pick(&rows) };
        declare(&mut draft, rng.below(DECLARERS), name, row);
        if rng.one_in(3) {
            draft.function(rng.from_to(30, 40) as u16, &[rng.pick(&rows)]);
        }
    }
    let args: Vec<u16> = (0..4).map(|_| rng.pick(&rows)).collect();
    draft.function(50, &args);
    draft.bytes()
}

/// Kinds 1 to 12 over a name, over a row over that name, and over Fn, Void,
/// Str; names are atoms or declared in any way.
pub fn targets(rng: &mut Rng, _: u64) -> Vec<u8> {
    let names: Vec<u16> = (0..=23).chain([24; 8]).chain([25; 8]).chain([26; 4]).collect();
    let style = Style { names: &names, rows: 0, items: 0 };
    let mut draft = random::sheet(rng, &style);
    for _ in 0..rng.from_to(1, 4) {
        draft.name(rng.pick(&names));
    }
    draft.row(&[rng.pick(&[9, 13])]);
    for _ in 0..rng.from_to(4, 14) {
        let pairs = random::row(rng, &names, draft.rows.len());
        draft.row(&pairs);
    }
    for name in [24, 25, rng.pick(&names)] {
        let byte = draft.name(2);
        if rng.below(4) > 0 {
            declare(&mut draft, rng.below(6), name, byte);
        }
        if rng.one_in(5) {
            declare(&mut draft, rng.below(6), name, byte);
        }
    }
    for _ in 0..rng.from_to(1, 6) {
        let bound = draft.rows.len();
        let row = rng.below(bound) as u16;
        match rng.below(4) {
            0 => draft.strct(rng.from_to(27, 40) as u16, &[row]),
            1 => draft.item(&[&[8, row, 0, 0]]),
            _ => draft.function(rng.from_to(41, 200) as u16, &[row]),
        }
    }
    draft.bytes()
}

pub fn functions(rng: &mut Rng, _: u64) -> Vec<u8> {
    let names = [2, 14, 23, 24, 25, 26, 27, 28];
    let mut draft = Draft::new();
    for name in [24, 25, 26, rng.pick(&names)] {
        let byte = draft.name(2);
        if rng.below(4) > 0 {
            let kind = rng.pick(&[1, 2, 3, 4, 7]);
            let head = [vec![kind, name], random::lifetimes(rng), vec![0]].concat();
            let tail = match kind {
                1 => vec![1, byte],
                2 => vec![byte, 0, 1, 0],
                3 | 4 => vec![rng.below(2) as u16],
                _ => vec![],
            };
            draft.item(&[&head, &tail]);
        }
    }
    for _ in 0..rng.from_to(1, 5) {
        let plain = draft.name(rng.pick(&names));
        draft.row(&[7, rng.below(4) as u16, plain]);
        let kind = rng.pick(&[8, 10]);
        draft.row(&[kind, rng.below(2) as u16, plain]);
        let inner = rng.below(draft.rows.len()) as u16;
        draft.row(&[12, rng.below(4) as u16, NONE, 1, inner]);
    }
    for _ in 0..rng.from_to(1, 8) {
        let kind = rng.pick(&[5, 5, 6]);
        let pairs = random::function(rng, kind, &names, draft.rows.len());
        draft.items.push(pairs);
        if rng.one_in(2) {
            mut_return(rng, &mut draft, &names);
        }
    }
    draft.bytes()
}

/// A C++ function that returns &mut or &mut [], with a receiver or without.
fn mut_return(rng: &mut Rng, draft: &mut Draft, names: &[u16]) {
    let plain = draft.name(rng.pick(names));
    let ret = if rng.one_in(2) {
        let flags = rng.pick(&[1, 1, 3]);
        draft.row(&[7, flags, plain])
    } else {
        draft.row(&[10, 1, plain])
    };
    let form = match rng.below(3) {
        0 => vec![2, rng.pick(names), rng.pick(&[0, 0, 1, 2, 3])],
        1 => vec![1, rng.pick(names)],
        _ => vec![0],
    };
    let count = rng.below(3);
    let args = random::some_rows(rng, draft.rows.len(), count);
    let flags = rng.pick(&[0, 0, 0, 2, 2, 4, 1]);
    let start = [5, rng.pick(names), flags, 0];
    draft.item(&[&start, &form, &[ret], &list(&args)]);
}

pub fn derives(rng: &mut Rng, _: u64) -> Vec<u8> {
    let mut draft = Draft::new();
    let byte = draft.name(2);
    let names: Vec<u16> = (14..40).collect();
    for _ in 0..rng.from_to(1, 8) {
        let count = rng.from_to(0, 5);
        let derives: Vec<u16> = (0..count).map(|_| rng.pick(&DERIVES)).collect();
        let kind = rng.pick(&[1, 2, 2, 3, 4, 7]);
        let head = [vec![kind, rng.pick(&names)], random::lifetimes(rng), list(&derives)].concat();
        let variants = rng.pick(&[0, 1, 2, 255]);
        let defaults = rng.below(variants as usize + 1).min(3) as u16;
        let tail = match kind {
            1 => list(&vec![byte; rng.below(2)]),
            2 => vec![byte, rng.below(2) as u16, variants, defaults],
            3 | 4 => vec![rng.below(4) as u16],
            _ => vec![],
        };
        draft.item(&[&head, &tail]);
    }
    draft.bytes()
}

/// Each derive, those that some check asks about more often.
const DERIVES: [u16; 21] = [0, 1, 2, 3, 4, 5, 6, 7, 8, 9, 10, 11, 12, 13, 14, 3, 3, 3, 14, 14, 14];
