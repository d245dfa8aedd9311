//! Every way to declare a name, and every kind of row over it.

use super::draft::Draft;
use super::rng::Rng;

/// What may declare a name; a set of them has a bit for each.
pub const DECLARERS: [&str; 5] = ["struct", "enum", "CxxType", "RustType", "alias"];

/// Kinds of rows over a plain name: label, and the pairs before the name's row.
pub const TARGETS: [(&str, &[u16]); 12] = [
    ("Box", &[1]),
    ("Vec", &[2]),
    ("UniquePtr", &[3]),
    ("SharedPtr", &[4]),
    ("WeakPtr", &[5]),
    ("CxxVector", &[6]),
    ("SliceRef", &[10, 0]),
    ("SliceRef mut", &[10, 1]),
    ("Array", &[11, 4]),
    ("Ref mut", &[7, 1]),
    ("Ref pinned", &[7, 3]),
    ("Ptr", &[8, 0]),
];

/// Row 2 is the target; an impl uses it, which asks nothing of its size.
/// `by_value`: a function takes the name as an argument, too.
pub fn declared(name: u16, target: usize, order: &[usize], by_value: bool) -> Draft {
    let mut draft = Draft::new();
    // One for a struct's field and an enum's repr that is not the name itself.
    let other = draft.name(if name == 2 { 3 } else { 2 });
    let plain = draft.name(name);
    let row = draft.row(&[TARGETS[target].1, &[plain]].concat());
    for declarer in order {
        match declarer {
            0 => draft.strct(name, &[other]),
            1 => draft.item(&[&[2, name, 0, 0, other, 0, 1, 0]]),
            2 => draft.item(&[&[3, name, 0, 0, 1]]),
            3 => draft.item(&[&[4, name, 0, 0, 0]]),
            _ => draft.item(&[&[7, name, 0, 0]]),
        }
    }
    draft.item(&[&[8, row, 0, 0]]);
    if by_value {
        draft.function(200, &[plain]);
    }
    draft
}

pub const TARGET_ROW: u16 = 2;

/// The members of a set of declarers.
pub fn members(set: usize) -> Vec<usize> {
    (0..DECLARERS.len()).filter(|bit| set >> bit & 1 == 1).collect()
}

/// A free name, then atoms that some rule tells apart.
const NAMES: [u16; 6] = [24, 14, 15, 1, 0, 2];

/// Case by case; the order of the declarers is drawn.
pub fn opaque(rng: &mut Rng, number: u64) -> Vec<u8> {
    let case = number as usize;
    let target = case % TARGETS.len();
    let case = case / TARGETS.len();
    let sets = 1 << DECLARERS.len();
    let name = NAMES[case / sets % NAMES.len()];
    let mut order = members(case % sets);
    super::graphs::shuffle(rng, &mut order);
    declared(name, target, &order, rng.one_in(2)).bytes()
}
