//! Messages 3 to 26, at a collected row.

use super::collect::{Names, atom, plain};
use super::record;
use oracle::judge::Record;
use oracle::sheet::{Row, Sheet};

const CXX_STRING: u16 = 14;

pub fn check(sheet: &Sheet, names: &Names, row: u16, records: &mut Vec<Record>) {
    let mut say = |message: u8, detail: u16| {
        records.push(record(message, 'R', row as usize, 0, detail));
    };
    match &sheet.rows[row as usize] {
        Row::Ident(name) => {
            let n = *name as usize;
            let known = names.strct[n].is_some() || names.enm[n] || names.cxx[n] || names.rust[n];
            if !atom(*name) && !known {
                say(3, 0);
            }
        }
        Row::Ty1 { kind: 1, inner } => boxed(sheet, names, row, *inner, records),
        Row::Ty1 { kind: 2, inner } => vec(sheet, names, row, *inner, records),
        Row::Ty1 { kind, inner } => {
            if let Some(message) = pointer(sheet, names, *kind, *inner) {
                say(message, 0);
            }
        }
        Row::Ref { flags, inner } => {
            if *flags == 1 && needs_pin(sheet, names, *inner) {
                say(18, 0);
            }
            reference(sheet, *inner, 19, 20).into_iter().for_each(|message| say(message, 0));
        }
        Row::Ptr { inner, .. } => {
            reference(sheet, *inner, 21, 22).into_iter().for_each(|message| say(message, 0));
        }
        Row::SliceRef { inner, .. } => {
            let name = plain(sheet, *inner);
            let stands = name.is_some_and(|n| names.rust[n as usize] || names.alias[n as usize]);
            if is_unsized(sheet, names, *inner) && !stands {
                say(23, name.is_some_and(|name| names.cxx_not_shared(name)) as u16);
            }
        }
        Row::Array { inner, .. } => {
            if is_unsized(sheet, names, *inner) {
                say(24, 0);
            }
        }
        Row::Fn { flags, args, .. } => function(sheet, row, *flags, args, records),
        Row::Str | Row::Void => {}
    }
}

/// What is said of a reference or pointer to a reference, or to the rest that
/// can't be pointed to.
fn reference(sheet: &Sheet, inner: u16, to_reference: u8, other: u8) -> Option<u8> {
    match sheet.rows[inner as usize] {
        Row::Ref { .. } => Some(to_reference),
        Row::Fn { .. } | Row::Void => Some(other),
        _ => None,
    }
}

fn boxed(sheet: &Sheet, names: &Names, row: u16, inner: u16, records: &mut Vec<Record>) {
    let name = plain(sheet, inner);
    if name.is_some_and(|name| names.only_cxx(name)) {
        records.push(record(4, 'R', row as usize, 0, 0));
    }
    if name.is_none_or(atom) {
        records.push(record(5, 'R', row as usize, 0, 0));
    }
}

fn vec(sheet: &Sheet, names: &Names, row: u16, inner: u16, records: &mut Vec<Record>) {
    let message = match sheet.rows[inner as usize] {
        Row::Ident(name) if names.only_cxx(name) => 6,
        Row::Ident(CXX_STRING) => 7,
        Row::Ident(_) | Row::Str => return,
        // A Vec of Box speaks of the Box, at the Box.
        Row::Ty1 { kind: 1, inner: target } => return boxed(sheet, names, inner, target, records),
        _ => 7,
    };
    records.push(record(message, 'R', row as usize, 0, 0));
}

/// Kinds 3 to 6: the messages for a Rust type, for a vector, for the rest, and
/// the atoms that the rest is.
fn pointer(sheet: &Sheet, names: &Names, kind: u16, inner: u16) -> Option<u8> {
    let (rust, vector, other, atoms): (u8, Option<u8>, u8, &[u16]) = match kind {
        3 => (8, None, 9, &[0, 1, 2, 3, 4, 5, 6, 7, 8, 9, 10, 11, 12, 13, 15]),
        4 => (10, Some(11), 12, &[1, 15]),
        5 => (13, Some(14), 15, &[1, 15]),
        _ => (16, Some(17), 17, &[0, 1, 15]),
    };
    match sheet.rows[inner as usize] {
        Row::Ident(name) if names.rust[name as usize] => Some(rust),
        Row::Ident(name) => atoms.contains(&name).then_some(other),
        Row::Ty1 { kind: 6, .. } => vector,
        _ => Some(other),
    }
}

fn needs_pin(sheet: &Sheet, names: &Names, inner: u16) -> bool {
    match sheet.rows[inner as usize] {
        Row::Ident(name) => name == CXX_STRING || names.only_cxx(name),
        Row::Ty1 { kind, .. } => kind == 6,
        _ => false,
    }
}

fn function(sheet: &Sheet, row: u16, flags: u16, args: &[u16], records: &mut Vec<Record>) {
    if flags & 2 != 0 {
        records.push(record(25, 'R', row as usize, 0, 0));
    }
    for (index, &arg) in args.iter().enumerate() {
        if matches!(sheet.rows[arg as usize], Row::Ptr { .. }) && flags & 1 == 0 {
            records.push(record(26, 'G', row as usize, index, 0));
        }
    }
}

pub fn is_unsized(sheet: &Sheet, names: &Names, row: u16) -> bool {
    match sheet.rows[row as usize] {
        Row::Ident(name) => {
            let n = name as usize;
            let trivial_alias = names.alias[n] && names.reasons[n] > 0;
            name == CXX_STRING || names.rust[n] || names.cxx_not_shared(name) && !trivial_alias
        }
        Row::Array { inner, .. } => is_unsized(sheet, names, inner),
        Row::Ty1 { kind, .. } => kind == 6,
        Row::Fn { .. } | Row::Void => true,
        _ => false,
    }
}

pub fn describe(sheet: &Sheet, names: &Names, row: u16) -> u16 {
    match sheet.rows[row as usize] {
        Row::Ident(name) => match name as usize {
            n if names.strct[n].is_some() => 1,
            n if names.enm[n] => 2,
            n if names.alias[n] => 3,
            n if names.cxx[n] => 4,
            n if names.rust[n] => 5,
            14 => 6,
            1 => 7,
            _ => 8,
        },
        Row::Ty1 { kind: 6, .. } => 17,
        Row::Ty1 { kind, .. } => 8 + kind,
        Row::Ref { .. } => 14,
        Row::Ptr { .. } => 15,
        Row::Str => 16,
        Row::SliceRef { .. } => 18,
        Row::Fn { .. } => 19,
        Row::Void => 20,
        Row::Array { .. } => 21,
    }
}
