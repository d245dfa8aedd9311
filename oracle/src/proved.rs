//! The worked sheet and the eleven sheets of docs/RULES.md, the sheets with
//! reasons to be Unpin, and the refusals' examples of docs/SHEET.md.

use crate::generate::Draft;
use crate::sheet::NONE;

fn pairs(list: &[u16]) -> Vec<u8> {
    list.iter().flat_map(|pair| pair.to_le_bytes()).collect()
}

pub fn worked() -> Vec<u8> {
    pairs(&[1, 2, 10, 14, 26, 0, 25, 1, 24, 0, 0, 1, 0, 1, 25, 0, 0, 1, 0])
}

/// The eleven sheets, in order.
pub fn eleven() -> Vec<Vec<u8>> {
    vec![
        pairs(&[0, 0]),
        worked(),
        structs(&[(25, 25), (24, 25)]),
        array_of_itself(),
        structs(&[(24, 24), (24, 2)]),
        structs(&[(2, 2)]),
        targets(&[4, 3, 6]),
        enums(&[(2, 0, 0, true), (2, 1, 0, true), (2, 2, 0, true)]),
        enums(&[(0, 0, 0, false), (0, 0, 1, false)]),
        reference(),
        aliases(&[(24, true), (25, false)]),
    ]
}

/// Sheets 7, 8, 9 and 11 taken apart: one thing to a sheet.
pub fn parts() -> Vec<Vec<u8>> {
    vec![
        targets(&[4]),
        targets(&[3]),
        targets(&[6]),
        enums(&[(2, 0, 0, true)]),
        enums(&[(2, 1, 0, true)]),
        enums(&[(2, 2, 0, true)]),
        enums(&[(0, 0, 0, false)]),
        enums(&[(0, 0, 1, false)]),
        aliases(&[(24, true)]),
        aliases(&[(24, false)]),
    ]
}

/// Seven sheets about reasons to be Unpin, as crates/rules/specs/Examples.antt
/// has them.
pub fn handles() -> Vec<Vec<u8>> {
    vec![
        // A CxxType alone, and a mutable reference to it.
        handle(&[(7, 1)], |draft| {
            draft.item(&[&[3, 27, 0, 0, 0]]);
            draft.function(30, &[1]);
        }),
        // All three: the reference stands.
        handle(&[(7, 1), (10, 1)], |draft| {
            draft.item(&[&[7, 27, 0, 0]]);
            draft.function(30, &[1, 2]);
            method(draft, 5, 31, 27, 1);
        }),
        // The last of two receivers; pinned ones do not count.
        handle(&[(10, 1), (7, 3)], |draft| {
            draft.item(&[&[7, 27, 0, 0]]);
            method(draft, 5, 30, 27, 1);
            method(draft, 6, 31, 27, 1);
            method(draft, 5, 32, 27, 3);
            draft.item(&[&[5, 33, 0, 0, 1, 27, 1, 1, 2]]);
        }),
        // All three of a struct's name: none.
        handle(&[(7, 1), (10, 1)], |draft| {
            let byte = draft.name(2);
            draft.strct(27, &[byte]);
            draft.item(&[&[7, 27, 0, 0]]);
            draft.function(30, &[1, 2]);
            method(draft, 5, 31, 27, 1);
        }),
        alias_and_self(27),
        alias_and_self(23),
        // Nothing mutable: none.
        handle(&[(10, 0), (7, 0)], |draft| {
            draft.item(&[&[7, 27, 0, 0]]);
            draft.function(30, &[1, 2]);
            method(draft, 5, 31, 27, 0);
        }),
    ]
}

/// Row 0 is the plain name 27; then rows over it, by kind and flags.
fn handle(rows: &[(u16, u16)], items: impl Fn(&mut Draft)) -> Vec<u8> {
    let mut draft = Draft::new();
    let plain = draft.name(27);
    for &(kind, flags) in rows {
        draft.row(&[kind, flags, plain]);
    }
    items(&mut draft);
    draft.bytes()
}

/// An alias, and a method of Self.
fn alias_and_self(name: u16) -> Vec<u8> {
    let mut draft = Draft::new();
    draft.item(&[&[7, name, 0, 0]]);
    method(&mut draft, 5, 30, 23, 1);
    draft.bytes()
}

/// A method without arguments and return.
fn method(draft: &mut Draft, kind: u16, name: u16, receiver: u16, flags: u16) {
    draft.item(&[&[kind, name, 0, 0, 2, receiver, flags, NONE, 0]]);
}

/// The examples of refusals 2 to 8, in order.
pub fn refused() -> Vec<Vec<u8>> {
    vec![
        vec![0; 32_769],
        vec![0; 3],
        pairs(&[1025, 0]),
        pairs(&[0, 1]),
        pairs(&[0, 1, 6, 99]),
        pairs(&[1, 0, 6, 3, 0]),
        pairs(&[2, 0, 8, 10, 9, 9]),
    ]
}

/// Structs of a name with one field of a plain name.
fn structs(list: &[(u16, u16)]) -> Vec<u8> {
    let mut draft = Draft::new();
    for &(name, field) in list {
        let row = draft.name(field);
        draft.strct(name, &[row]);
    }
    draft.bytes()
}

fn array_of_itself() -> Vec<u8> {
    let mut draft = Draft::new();
    let own = draft.name(24);
    let array = draft.row(&[11, 4, own]);
    draft.strct(24, &[array]);
    draft.bytes()
}

/// A free function with arguments of these kinds of Bool.
fn targets(kinds: &[u16]) -> Vec<u8> {
    let mut draft = Draft::new();
    let bool = draft.name(0);
    let args: Vec<u16> = kinds.iter().map(|&kind| draft.row(&[kind, bool])).collect();
    draft.function(24, &args);
    draft.bytes()
}

/// Enums of repr U8: variants, defaults, explicit, whether it derives Default.
fn enums(list: &[(u16, u16, u16, bool)]) -> Vec<u8> {
    let mut draft = Draft::new();
    let byte = draft.name(2);
    for (index, &(variants, defaults, explicit, derives)) in list.iter().enumerate() {
        let derives: &[u16] = if derives { &[1, 3] } else { &[0] };
        let tail = [byte, explicit, variants, defaults];
        draft.item(&[&[2, 24 + index as u16, 0], derives, &tail]);
    }
    draft.bytes()
}

/// A holds &B, B holds RustString.
fn reference() -> Vec<u8> {
    let mut draft = Draft::new();
    let b = draft.name(25);
    let to_b = draft.row(&[7, 0, b]);
    let text = draft.name(15);
    draft.strct(24, &[to_b]);
    draft.strct(25, &[text]);
    draft.bytes()
}

/// An alias and a struct of each name, the alias first or last.
fn aliases(list: &[(u16, bool)]) -> Vec<u8> {
    let mut draft = Draft::new();
    let byte = draft.name(2);
    for &(name, alias_first) in list {
        if alias_first {
            draft.item(&[&[7, name, 0, 0]]);
        }
        draft.strct(name, &[byte]);
        if !alias_first {
            draft.item(&[&[7, name, 0, 0]]);
        }
    }
    draft.bytes()
}

/// Readings that two careful people may differ on, and small sheets that were
/// worth keeping.
pub fn readings() -> Vec<Vec<u8>> {
    let mut odd = pairs(&[1, 0]);
    odd.push(0);
    vec![
        odd,
        pairs(&[1, 0, 6]),
        pairs(&[1, 0, 8]),
        pairs(&[2, 1, 10, 12, 1, 9, 9]),
        pairs(&[1024, 0]),
        pairs(&[0, 0, 0]),
        pairs(&[0, 1, 6, 1, 24, 9]),
        pairs(&[0, 1, 6, 1, 24, 2, 256]),
        pairs(&[1, 1, 8, 10, 9, 2, 24, 0, 0, 0]),
        pairs(&[1, 1, 8, 10, 9, 5, 24, 0, 0, 0, NONE - 1, 0]),
        pairs(&[1, 0, 6, 12, 0, NONE, 0]),
    ]
}
