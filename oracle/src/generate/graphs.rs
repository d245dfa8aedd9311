//! Structs that hold structs, and rows that hold rows.

use super::draft::Draft;
use super::rng::Rng;
use crate::sheet::NONE;

/// Up to ten structs, some of one name, with fields among them.
pub fn cycles(rng: &mut Rng, _: u64) -> Vec<u8> {
    let names: Vec<u16> = (24..24 + rng.from_to(1, 9) as u16).chain([2, 14, 15]).collect();
    let mut draft = Draft::new();
    let rows: Vec<u16> = names.iter().map(|&name| draft.name(name)).collect();
    let wrapped: Vec<u16> = rows.iter().map(|&row| draft.row(&[11, 2, row])).collect();
    for _ in 0..rng.from_to(1, 10) {
        let count = rng.pick(&[0, 1, 1, 1, 2, 2, 3, 6]);
        let fields: Vec<u16> = (0..count)
            .map(|_| if rng.one_in(8) { rng.pick(&wrapped) } else { rng.pick(&rows) })
            .collect();
        draft.strct(rng.pick(&names), &fields);
    }
    draft.bytes()
}

/// Structs in a row, forwards, backwards or shuffled; now and then a ring, a
/// loop at an end, a Rust type of the head's name.
pub fn chains(rng: &mut Rng, _: u64) -> Vec<u8> {
    let length = rng.pick(&[1, 2, 3, 10, 100, 200, 224, 232, 255]);
    let mut draft = Draft::new();
    // Every struct of a chain has its own name, a free one if there are enough.
    let first = if length > 232 || rng.one_in(3) { 1 } else { 24 };
    let name = |index: usize| (index + first) as u16 % 256;
    let rows: Vec<u16> = (0..length).map(|index| draft.name(name(index))).collect();
    let byte = draft.name(0);
    let mut order: Vec<usize> = (0..length).collect();
    match rng.below(3) {
        0 => order.reverse(),
        1 => shuffle(rng, &mut order),
        _ => {}
    }
    let end = match rng.below(4) {
        0 => Some(0),
        1 => Some(rng.below(length)),
        _ => None,
    };
    let extra = rng.one_in(4);
    for index in order {
        let next = if index + 1 < length { Some(index + 1) } else { end };
        let mut fields = vec![next.map_or(byte, |next| rows[next])];
        if extra {
            fields.push(rows[rng.from_to(index, length - 1)]);
        }
        draft.strct(name(index), &fields);
    }
    if length < 255 && rng.one_in(3) {
        draft.item(&[&[4, name(0), 0, 0, 0]]);
    }
    draft.bytes()
}

pub fn shuffle<T>(rng: &mut Rng, list: &mut [T]) {
    for index in (1..list.len()).rev() {
        list.swap(index, rng.below(index + 1));
    }
}

/// Structs that reach improper types, or don't, through what is looked
/// through and what is not.
pub fn improper(rng: &mut Rng, _: u64) -> Vec<u8> {
    let mut draft = Draft::new();
    let names: Vec<u16> = (24..32).chain([2, 15, 16, 23]).collect();
    let mut rows: Vec<u16> = names.iter().map(|&name| draft.name(name)).collect();
    rows.push(draft.row(&[9]));
    for _ in 0..rng.from_to(2, 16) {
        let inner = rng.pick(&rows);
        let kind = rng.pick(&[1, 2, 3, 4, 5, 6, 7, 7, 8, 8, 10, 11, 11]);
        let row = match kind {
            7 => draft.row(&[7, rng.below(4) as u16, inner]),
            8 | 10 => draft.row(&[kind, rng.below(2) as u16, inner]),
            11 => draft.row(&[11, 1, inner]),
            kind => draft.row(&[kind, inner]),
        };
        rows.push(row);
    }
    for _ in 0..rng.from_to(1, 12) {
        let count = rng.from_to(1, 3);
        let fields: Vec<u16> = (0..count).map(|_| rng.pick(&rows)).collect();
        draft.strct(rng.pick(&names), &fields);
    }
    for _ in 0..rng.below(4) {
        let kind = rng.pick(&[3, 4, 7]);
        let tail: &[u16] = if kind == 7 { &[] } else { &[1] };
        draft.item(&[&[kind, rng.pick(&names), 0, 0], tail]);
    }
    draft.bytes()
}

/// One deep row, or a few Fn rows that unfold widely; used as a field, as an
/// argument and as an impl.
pub fn nests(rng: &mut Rng, _: u64) -> Vec<u8> {
    let mut draft = Draft::new();
    let mut row = draft.name(rng.pick(&[2, 14, 24, 25]));
    if rng.one_in(3) {
        for depth in 0..rng.from_to(1, 9) {
            let args = if depth % 2 == 0 { vec![row, row] } else { vec![row] };
            let pairs = [vec![12, rng.below(4) as u16, row, args.len() as u16], args].concat();
            row = draft.row(&pairs);
        }
    } else {
        let depth = rng.pick(&[2, 20, 80, 138]);
        for _ in 0..depth {
            let kind = rng.pick(&[1, 2, 3, 4, 5, 6, 7, 8, 10, 11]);
            row = match kind {
                7 => draft.row(&[7, rng.below(4) as u16, row]),
                8 | 10 => draft.row(&[kind, rng.below(2) as u16, row]),
                11 => draft.row(&[11, 4, row]),
                kind => draft.row(&[kind, row]),
            };
        }
    }
    let middle = rng.below(draft.rows.len()) as u16;
    draft.strct(24, &[row, middle]);
    draft.item(&[&[5, 30, 0, 0, 0, if rng.one_in(2) { row } else { NONE }, 1, middle]]);
    draft.item(&[&[8, row, 0, 0]]);
    draft.bytes()
}
