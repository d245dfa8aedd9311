//! C++ names, and what asks of them to be Unpin or does not.

use super::draft::{Draft, list};
use super::graphs::shuffle;
use super::kinds::declare;
use super::rng::Rng;
use crate::sheet::NONE;

/// Free names, Self, an atom.
const NAMES: [u16; 9] = [24, 24, 25, 25, 26, 26, 255, 23, 14];

/// Of the declarers of `declare`: CxxTypes and aliases, or a struct, an enum.
const DECLARERS: [usize; 10] = [2, 2, 3, 3, 5, 5, 5, 5, 0, 1];

/// Of references and receivers: mutable ones, not pinned, more often.
const FLAGS: [u16; 6] = [0, 1, 1, 1, 2, 3];

/// A few names, rows over them that some item reaches or none does, and
/// functions; what declares a name stands before or after its uses.
pub fn handles(rng: &mut Rng, _: u64) -> Vec<u8> {
    let mut draft = Draft::new();
    // Row 0, as `declare` needs it for enums.
    let byte = draft.name(2);
    let names: Vec<u16> = (0..rng.from_to(1, 3)).map(|_| rng.pick(&NAMES)).collect();
    for &name in &names {
        for _ in 0..rng.pick(&[1, 1, 1, 2]) {
            declare(&mut draft, rng.pick(&DECLARERS), name, byte);
        }
    }
    let rows = rows(rng, &mut draft, &names);
    for index in 0..rng.from_to(1, 6) {
        let name = 100 + index as u16;
        match rng.below(9) {
            0 => draft.strct(name, &[rng.pick(&rows)]),
            1 => draft.item(&[&[8, rng.pick(&rows), 0, 0]]),
            _ => function(rng, &mut draft, name, &names, &rows),
        }
    }
    if rng.one_in(2) {
        shuffle(rng, &mut draft.items);
    }
    draft.bytes()
}

/// Names, references and slices, some inside a box, an array, a reference or
/// a function pointer.
fn rows(rng: &mut Rng, draft: &mut Draft, names: &[u16]) -> Vec<u16> {
    let mut rows = Vec::new();
    for _ in 0..rng.from_to(1, 6) {
        let plain = draft.name(rng.pick(names));
        let row = match rng.below(5) {
            0 => plain,
            1 | 2 => draft.row(&[7, rng.pick(&FLAGS), plain]),
            _ => draft.row(&[10, rng.pick(&[0, 1, 1]), plain]),
        };
        rows.push(match rng.below(12) {
            0 => draft.row(&[1, row]),
            1 => draft.row(&[11, 4, row]),
            2 => draft.row(&[7, 1, row]),
            3 => draft.row(&[12, 0, rng.pick(&[NONE, row]), 1, row]),
            _ => row,
        });
    }
    rows
}

/// A function of either language, mostly a method.
fn function(rng: &mut Rng, draft: &mut Draft, name: u16, names: &[u16], rows: &[u16]) {
    let own = if rng.one_in(6) { rng.pick(&NAMES) } else { rng.pick(names) };
    let form = match rng.below(8) {
        0..=2 => vec![0],
        3 => vec![1, own],
        _ => vec![2, own, rng.pick(&FLAGS)],
    };
    let ret = if rng.one_in(6) { rng.pick(rows) } else { NONE };
    let args: Vec<u16> = (0..rng.pick(&[0, 0, 1, 2])).map(|_| rng.pick(rows)).collect();
    draft.item(&[&[rng.pick(&[5, 6]), name, 0, 0], &form, &[ret], &list(&args)]);
}
