//! Order with message 2, tiers, cycles and improper names, over chains.

use super::collect::{Names, atom, plain};
use super::record;
use oracle::judge::Record;
use oracle::sheet::{Item, Row, Sheet};

/// A struct item's fields; none for other items.
fn fields(sheet: &Sheet, item: usize) -> &[u16] {
    match &sheet.items[item] {
        Item::Struct { fields, .. } => fields,
        _ => &[],
    }
}

/// The struct that a field leads to: the last one of its plain name.
fn leads_to(sheet: &Sheet, names: &Names, field: u16) -> Option<usize> {
    names.strct[plain(sheet, field)? as usize]
}

struct Walk<'a> {
    sheet: &'a Sheet,
    names: &'a Names,
    /// 0 unmarked, 1 being visited, 2 finished.
    marks: [u8; 255],
    order: Vec<u8>,
}

pub fn order(sheet: &Sheet, names: &Names, records: &mut Vec<Record>) -> Vec<u8> {
    let mut walk = Walk { sheet, names, marks: [0; 255], order: Vec::new() };
    for (number, item) in sheet.items.iter().enumerate() {
        if let Item::Struct { .. } = item {
            walk.visit(number, records);
        }
    }
    walk.order
}

impl Walk<'_> {
    /// Whether the visit is good.
    fn visit(&mut self, item: usize, records: &mut Vec<Record>) -> bool {
        if self.marks[item] != 0 {
            return self.marks[item] == 2;
        }
        self.marks[item] = 1;
        let mut good = true;
        for (index, &field) in fields(self.sheet, item).iter().enumerate() {
            if let Some(held) = leads_to(self.sheet, self.names, field)
                && !self.visit(held, records)
            {
                records.push(record(2, 'F', item, index, 0));
                good = false;
            }
        }
        self.marks[item] = 2;
        self.order.push(item as u8);
        good
    }
}

/// Structs at the ends of chains of this many fields, again and again: a set
/// of items, one step further.
fn step(sheet: &Sheet, names: &Names, from: &[bool]) -> Vec<bool> {
    let mut to = vec![false; from.len()];
    for item in (0..from.len()).filter(|&item| from[item]) {
        for &field in fields(sheet, item) {
            if let Some(held) = leads_to(sheet, names, field) {
                to[held] = true;
            }
        }
    }
    to
}

/// The length of the longest chain; 255 when there is one of 255 fields, as
/// then some struct comes twice and the chain can go on for ever.
pub fn tier(sheet: &Sheet, names: &Names, item: usize) -> u8 {
    let mut at = vec![false; sheet.items.len()];
    at[item] = true;
    for length in 0..255 {
        at = step(sheet, names, &at);
        if !at.contains(&true) {
            return length;
        }
    }
    255
}

enum End {
    Improper(bool),
    Struct(usize),
}

/// A field looked through.
fn end(sheet: &Sheet, names: &Names, field: u16) -> End {
    match sheet.rows[field as usize] {
        Row::Ref { inner, .. } | Row::Ptr { inner, .. } | Row::Array { inner, .. } => {
            end(sheet, names, inner)
        }
        Row::Ident(name) => match names.strct[name as usize] {
            _ if atom(name) => End::Improper(name == 15),
            Some(item) => End::Struct(item),
            None => End::Improper(names.rust[name as usize] || names.alias[name as usize]),
        },
        Row::Ty1 { kind, .. } => End::Improper(kind <= 2),
        Row::Str | Row::Fn { .. } | Row::Void | Row::SliceRef { .. } => End::Improper(true),
    }
}

/// Whether a chain from the name's last struct ends in an improper type.
pub fn improper(sheet: &Sheet, names: &Names, name: usize) -> bool {
    let mut open: Vec<usize> = names.strct[name].into_iter().collect();
    let mut reached = vec![false; sheet.items.len()];
    while let Some(item) = open.pop() {
        if std::mem::replace(&mut reached[item], true) {
            continue;
        }
        for &field in fields(sheet, item) {
            match end(sheet, names, field) {
                End::Improper(true) => return true,
                End::Improper(false) => {}
                End::Struct(held) => open.push(held),
            }
        }
    }
    false
}
