//! Random rows and items over a pool of names.

use super::draft::{Draft, list};
use super::rng::Rng;
use crate::sheet::NONE;

/// What a random sheet is drawn from.
pub struct Style<'a> {
    pub names: &'a [u16],
    pub rows: usize,
    pub items: usize,
}

/// Names 0 to 30: atoms, reserved names, Self and seven free ones.
pub fn dense() -> Vec<u16> {
    (0..=30).collect()
}

/// Mostly free names, so that a sheet has fewer reserved ones.
pub fn mostly_free() -> Vec<u16> {
    let mut names = dense();
    for _ in 0..6 {
        names.extend(24..=30);
    }
    names
}

pub fn tiny(rng: &mut Rng, _: u64) -> Vec<u8> {
    draw(rng, &mostly_free(), 6, 4)
}

pub fn small(rng: &mut Rng, _: u64) -> Vec<u8> {
    let names = if rng.one_in(3) { dense() } else { mostly_free() };
    draw(rng, &names, 24, 12)
}

pub fn medium(rng: &mut Rng, _: u64) -> Vec<u8> {
    let names: Vec<u16> = (0..=255).collect();
    draw(rng, &names, 80, 40)
}

pub fn reserved(rng: &mut Rng, _: u64) -> Vec<u8> {
    let names: Vec<u16> = (0..=24).collect();
    draw(rng, &names, 20, 14)
}

pub fn few(rng: &mut Rng, _: u64) -> Vec<u8> {
    let names = [rng.pick(&[2, 14, 15, 16, 23, 24]), 25, 26];
    draw(rng, &names, 16, 20)
}

fn draw(rng: &mut Rng, names: &[u16], rows: usize, items: usize) -> Vec<u8> {
    let rows = rng.from_to(0, rows);
    let items = rng.from_to(0, items);
    sheet(rng, &Style { names, rows, items }).bytes()
}

pub fn sheet(rng: &mut Rng, style: &Style) -> Draft {
    let mut draft = Draft::new();
    for _ in 0..style.rows {
        let pairs = row(rng, style.names, draft.rows.len());
        draft.row(&pairs);
    }
    for _ in 0..style.items {
        let pairs = item(rng, style.names, &draft.rows);
        draft.items.push(pairs);
    }
    draft
}

/// A row that refers to rows below `bound`.
pub fn row(rng: &mut Rng, names: &[u16], bound: usize) -> Vec<u16> {
    if bound == 0 || rng.below(10) < 4 {
        return match rng.below(24) {
            0 => vec![9],
            1 => vec![13],
            2 => vec![12, rng.below(4) as u16, NONE, 0],
            _ => vec![0, rng.pick(names)],
        };
    }
    let inner = rng.below(bound) as u16;
    match rng.from_to(1, 12) as u16 {
        7 => vec![7, rng.below(4) as u16, inner],
        kind @ (8 | 10) => vec![kind, rng.below(2) as u16, inner],
        9 => vec![7, 1, inner],
        11 => vec![11, rng.pick(&[0, 1, 2, 65_535]), inner],
        12 => {
            let count = rng.below(4);
            let args = some_rows(rng, bound, count);
            [vec![12, rng.below(4) as u16, ret(rng, bound)], list(&args)].concat()
        }
        kind => vec![kind, inner],
    }
}

fn ret(rng: &mut Rng, bound: usize) -> u16 {
    if bound == 0 || rng.one_in(2) { NONE } else { rng.below(bound) as u16 }
}

pub fn some_rows(rng: &mut Rng, bound: usize, count: usize) -> Vec<u16> {
    let count = if bound == 0 { 0 } else { count };
    (0..count).map(|_| rng.below(bound) as u16).collect()
}

/// Mostly none; `static` now and then.
pub fn lifetimes(rng: &mut Rng) -> Vec<u16> {
    let count = if rng.one_in(3) { rng.from_to(1, 3) } else { 0 };
    let entries: Vec<u16> = (0..count).map(|_| rng.pick(&[0, 1, 2, 255])).collect();
    list(&entries)
}

pub fn derives(rng: &mut Rng) -> Vec<u16> {
    let count = if rng.one_in(3) { rng.from_to(1, 4) } else { 0 };
    let entries: Vec<u16> = (0..count).map(|_| rng.below(15) as u16).collect();
    list(&entries)
}

fn head(rng: &mut Rng, kind: u16, names: &[u16]) -> Vec<u16> {
    [vec![kind, rng.pick(names)], lifetimes(rng), derives(rng)].concat()
}

pub fn item(rng: &mut Rng, names: &[u16], rows: &[Vec<u16>]) -> Vec<u16> {
    let kind = rng.pick(&[0, 1, 1, 1, 1, 2, 2, 3, 3, 3, 4, 4, 5, 5, 5, 6, 6, 7, 7, 8, 8]);
    match kind {
        0 => vec![0],
        1 => {
            let count = rng.pick(&[0, 1, 1, 2, 2, 3, 5, 8]);
            let fields = some_rows(rng, rows.len(), count);
            [head(rng, 1, names), list(&fields)].concat()
        }
        2 => enumeration(rng, names, rows),
        3 | 4 => {
            let flags = rng.pick(&[0, 0, 0, 1, 1, 2, 3]);
            [head(rng, kind, names), vec![flags]].concat()
        }
        5 | 6 => function(rng, kind, names, rows.len()),
        7 => head(rng, 7, names),
        _ => impl_or_include(rng, rows.len()),
    }
}

fn impl_or_include(rng: &mut Rng, bound: usize) -> Vec<u16> {
    if bound == 0 {
        return vec![0];
    }
    let negative = rng.one_in(6) as u16;
    [vec![8, rng.below(bound) as u16, negative], lifetimes(rng)].concat()
}

pub fn enumeration(rng: &mut Rng, names: &[u16], rows: &[Vec<u16>]) -> Vec<u16> {
    let plain = |row: &u16| rows[*row as usize][0] == 0;
    let reprs: Vec<u16> = (0..rows.len() as u16).filter(plain).collect();
    if reprs.is_empty() {
        return vec![0];
    }
    let variants = rng.pick(&[0, 0, 1, 2, 3, 255]);
    let defaults = rng.below(variants as usize + 1).min(rng.from_to(0, 3)) as u16;
    let explicit = rng.one_in(3) as u16;
    let tail = vec![rng.pick(&reprs), explicit, variants, defaults];
    [head(rng, 2, names), tail].concat()
}

pub fn function(rng: &mut Rng, kind: u16, names: &[u16], bound: usize) -> Vec<u16> {
    let flags = rng.below(if kind == 5 { 8 } else { 4 }) as u16;
    let flags = if rng.one_in(2) { flags & 6 } else { flags };
    let form = match rng.below(4) {
        0 | 1 => vec![0],
        2 => vec![1, rng.pick(names)],
        _ => vec![2, rng.pick(names), rng.below(4) as u16],
    };
    let count = rng.pick(&[0, 1, 1, 2, 3, 4]);
    let args = some_rows(rng, bound, count);
    let start = vec![kind, rng.pick(names), flags];
    [start, lifetimes(rng), form, vec![ret(rng, bound)], list(&args)].concat()
}
