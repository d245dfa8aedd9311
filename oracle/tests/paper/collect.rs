//! Names, message 1, collected rows, reasons.

use super::record;
use oracle::judge::Record;
use oracle::sheet::{Form, Function, Head, Item, Row, Sheet};
use std::collections::HashSet;

pub struct Names {
    /// Last struct and last untrusted CxxType of a name, by item.
    pub strct: [Option<usize>; 256],
    pub untrusted: [Option<usize>; 256],
    pub enm: [bool; 256],
    pub cxx: [bool; 256],
    pub rust: [bool; 256],
    pub alias: [bool; 256],
    /// Whether the last item that declares the name has lifetimes.
    pub resolved: [Option<bool>; 256],
    pub reasons: [u16; 256],
}

pub fn atom(name: u16) -> bool {
    name < 16
}

impl Names {
    /// Declared by a CxxType, and by no struct, enum or alias.
    pub fn only_cxx(&self, name: u16) -> bool {
        let n = name as usize;
        self.cxx[n] && !self.alias[n] && self.strct[n].is_none() && !self.enm[n]
    }

    pub fn cxx_not_shared(&self, name: u16) -> bool {
        let n = name as usize;
        self.cxx[n] && self.strct[n].is_none() && !self.enm[n]
    }
}

pub fn names(sheet: &Sheet, records: &mut Vec<Record>) -> Names {
    let mut names = Names {
        strct: [None; 256],
        untrusted: [None; 256],
        enm: [false; 256],
        cxx: [false; 256],
        rust: [false; 256],
        alias: [false; 256],
        resolved: [None; 256],
        reasons: [0; 256],
    };
    let mut seen_types = HashSet::new();
    let mut seen_functions = HashSet::new();
    for (number, item) in sheet.items.iter().enumerate() {
        let duplicate = match item {
            Item::CxxFunction(f) | Item::RustFunction(f) => {
                self_type(f) != Some(23) && !seen_functions.insert((self_type(f), f.name))
            }
            item => declaration(item).is_some_and(|head| {
                !seen_types.insert(head.name) && collides(&names, item, head.name as usize)
            }),
        };
        if duplicate {
            records.push(record(1, 'I', number, 0, 0));
        }
        if let Some(head) = declaration(item) {
            enter(&mut names, number, item, head);
        }
    }
    names
}

fn declaration(item: &Item) -> Option<&Head> {
    match item {
        Item::Struct { head, .. }
        | Item::Enum { head, .. }
        | Item::CxxType { head, .. }
        | Item::RustType { head, .. }
        | Item::TypeAlias { head } => Some(head),
        _ => None,
    }
}

fn self_type(function: &Function) -> Option<u16> {
    match function.form {
        Form::Free => None,
        Form::Associated(name) | Form::Method { name, .. } => Some(name),
    }
}

/// Of a name that was seen: whether this item is a duplicate.
fn collides(names: &Names, item: &Item, name: usize) -> bool {
    let shared = names.strct[name].is_some() || names.enm[name];
    match item {
        Item::Struct { .. } | Item::Enum { .. } => !(names.cxx[name] && !shared),
        Item::CxxType { .. } => names.cxx[name] || !shared,
        _ => true,
    }
}

fn enter(names: &mut Names, number: usize, item: &Item, head: &Head) {
    let name = head.name as usize;
    match item {
        Item::Struct { .. } => names.strct[name] = Some(number),
        Item::Enum { .. } => names.enm[name] = true,
        Item::CxxType { flags, .. } => {
            names.cxx[name] = true;
            if flags & 1 == 0 {
                names.untrusted[name] = Some(number);
            }
        }
        Item::RustType { .. } => names.rust[name] = true,
        _ => {
            names.cxx[name] = true;
            names.alias[name] = true;
        }
    }
    names.resolved[name] = Some(!head.lifetimes.is_empty());
}

/// Rows at first sight, before what they refer to; a seen row is not walked.
pub fn rows(sheet: &Sheet) -> Vec<u16> {
    let mut collected = Vec::new();
    let mut seen = vec![false; sheet.rows.len()];
    for item in &sheet.items {
        for row in item.uses() {
            walk(sheet, row, &mut seen, &mut collected);
        }
    }
    collected
}

fn walk(sheet: &Sheet, row: u16, seen: &mut [bool], collected: &mut Vec<u16>) {
    if std::mem::replace(&mut seen[row as usize], true) {
        return;
    }
    collected.push(row);
    for part in sheet.rows[row as usize].parts() {
        walk(sheet, part, seen, collected);
    }
}

pub fn plain(sheet: &Sheet, row: u16) -> Option<u16> {
    match sheet.rows[row as usize] {
        Row::Ident(name) => Some(name),
        _ => None,
    }
}

pub fn reasons(sheet: &Sheet, mut names: Names, collected: &[u16]) -> Names {
    let mut by_value: Vec<u16> = Vec::new();
    for item in &sheet.items {
        if let Item::Struct { .. } | Item::CxxFunction(_) | Item::RustFunction(_) = item {
            by_value.extend(item.uses());
        }
    }
    for &row in collected {
        match sheet.rows[row as usize] {
            Row::Ty1 { kind: 1 | 2, inner } | Row::SliceRef { inner, .. } => by_value.push(inner),
            _ => {}
        }
    }
    for name in by_value.into_iter().filter_map(|row| plain(sheet, row)) {
        if names.cxx_not_shared(name) {
            names.reasons[name as usize] += 1;
        }
    }
    names
}
