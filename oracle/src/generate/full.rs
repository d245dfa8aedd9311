//! Sheets at the limits of size: 255 items, 1,024 rows, 32,768 bytes.

use super::draft::Draft;
use super::random::{self, Style};
use super::rng::Rng;
use crate::sheet::{MAX_BYTES, MAX_ITEMS, MAX_ROWS};

pub fn items(rng: &mut Rng, _: u64) -> Vec<u8> {
    let names: Vec<u16> = if rng.one_in(2) { (0..=255).collect() } else { random::dense() };
    let rows = rng.from_to(0, 40);
    random::sheet(rng, &Style { names: &names, rows, items: MAX_ITEMS }).bytes()
}

/// 1,024 rows that unfold to less than 10,000 nodes: names, rows over names
/// and rows over those.
pub fn rows(rng: &mut Rng, _: u64) -> Vec<u8> {
    let mut draft = Draft::new();
    for name in 0..=255 {
        draft.name(name);
    }
    while draft.rows.len() < MAX_ROWS {
        let bound = if rng.one_in(6) { draft.rows.len().min(600) } else { 256 };
        let pairs = random::row(rng, &[24], bound);
        draft.row(&pairs);
    }
    let names: Vec<u16> = (0..=255).collect();
    for _ in 0..rng.from_to(20, 100) {
        let pairs = random::item(rng, &names, &draft.rows);
        draft.items.push(pairs);
    }
    draft.bytes()
}

/// A struct's bytes with its offset, without fields.
const BARE: usize = 12;

/// Adds structs of these fields, all of them if they fit, until the sheet has
/// exactly 32,768 bytes.
fn fill(draft: &mut Draft, mut next: impl FnMut(usize) -> (u16, Vec<u16>)) {
    while draft.len() < MAX_BYTES {
        let (name, mut fields) = next(draft.items.len());
        let room = (MAX_BYTES - draft.len() - BARE) / 2;
        // Never leave less than another bare struct needs.
        if fields.len() > room || room - fields.len() < BARE / 2 && room != fields.len() {
            let wanted = if room <= 64 { room } else { room - BARE / 2 };
            let last = fields[0];
            fields.resize(wanted.min(64), last);
        }
        draft.strct(name, &fields);
    }
    assert!(draft.len() == MAX_BYTES && draft.items.len() <= MAX_ITEMS);
}

/// So many structs a full sheet has at least.
const CERTAIN: usize = 180;

/// Fields that nothing is said about: atoms, arrays of atoms, and structs
/// that stand before or after, so that there is no cycle.
pub fn none(rng: &mut Rng, _: u64) -> Vec<u8> {
    let mut draft = Draft::new();
    let mut rows: Vec<u16> = (0..14).map(|name| draft.name(name)).collect();
    let structs: Vec<u16> = (24..=255).map(|name| draft.name(name)).collect();
    for index in 0..8 {
        rows.push(draft.row(&[11, index, index]));
        rows.push(draft.row(&[7, 1, structs[index as usize]]));
        rows.push(draft.row(&[1, structs[index as usize]]));
    }
    let backward = rng.one_in(2);
    fill(&mut draft, |number| {
        let field = |_| match rng.below(4) {
            0 if backward && number > 0 => structs[rng.below(number)],
            0 if !backward && number + 1 < CERTAIN => structs[rng.from_to(number + 1, CERTAIN - 1)],
            _ => rng.pick(&rows),
        };
        (24 + number as u16, (0..64).map(field).collect())
    });
    draft.bytes()
}

/// Structs of fields by value that may not be: two records each where the
/// name is that of the struct itself.
pub fn many(rng: &mut Rng, _: u64) -> Vec<u8> {
    let mut draft = Draft::new();
    if rng.one_in(3) {
        return ladder(&mut draft);
    }
    let text = draft.name(14);
    let vector = draft.row(&[6, text]);
    let void = draft.row(&[13]);
    let function = draft.row(&[12, 2, 65_535, 1, vector]);
    let own: Vec<u16> = (24..34).map(|name| draft.name(name)).collect();
    draft.item(&[&[4, 24, 0, 0, 2]]);
    draft.item(&[&[3, 25, 0, 0, 2]]);
    draft.item(&[&[7, 40, 1, 0, 2, 3, 14]]);
    let plain = rng.one_in(2);
    fill(&mut draft, |number| {
        let fields = (0..64).map(|_| match rng.below(8) {
            0 if !plain => rng.pick(&own),
            1 => vector,
            2 => void,
            3 => function,
            _ => text,
        });
        (24 + (number % 10) as u16, fields.collect())
    });
    draft.bytes()
}

/// A chain of structs, the last leading back to the head, which is a Rust
/// type too: every field of the chain fails.
fn ladder(draft: &mut Draft) -> Vec<u8> {
    let rows: Vec<u16> = (24..=246).map(|name| draft.name(name)).collect();
    draft.item(&[&[4, 24, 0, 0, 0]]);
    let last = rows.len() - 1;
    fill(draft, |number| {
        let index = (number - 1).min(last);
        let next = rows[if index < last { index + 1 } else { 0 }];
        let count = if index == last { 64 } else { 60 };
        let mut fields = vec![rows[0]; count];
        fields[0] = next;
        (24 + index as u16, fields)
    });
    draft.bytes()
}

/// Random rows and items, then structs up to 32,768 bytes.
pub fn mixed(rng: &mut Rng, _: u64) -> Vec<u8> {
    let names: Vec<u16> = (0..=255).collect();
    let style = Style { names: &names, rows: 150, items: 15 };
    let mut draft = random::sheet(rng, &style);
    while crowded(&draft) {
        draft = random::sheet(rng, &style);
    }
    let bound = draft.rows.len();
    fill(&mut draft, |_| {
        let count = rng.from_to(62, 64);
        (rng.pick(&names), random::some_rows(rng, bound, count))
    });
    draft.bytes()
}

/// Whether the rows unfold to so much that the full sheet may be too large.
fn crowded(draft: &Draft) -> bool {
    let sheet = crate::reader::read(&draft.bytes()).expect("a good draft");
    sheet.tree_sizes().iter().sum::<u64>() > 2_000
}
