//! Why a C++ name must be Unpin (docs/RULES.md). The Rust says it of names
//! that an alias bears, and of no others, so it is worked out here for all,
//! one name at a time, over row and item numbers.

use crate::judge::{Answer, Reason};
use crate::print;
use crate::sheet::{Form, Item, Row, Sheet};

/// Flags of a row or a receiver: mutable, and not pinned.
const MUTABLE: u16 = 1;

/// Of each name the reason that stood last.
pub fn reasons(sheet: &Sheet, collected: &[u16]) -> [Option<Reason>; 256] {
    std::array::from_fn(|name| reason(sheet, collected, name as u16))
}

/// References stand after receivers, and these after slices. So the last
/// reference counts; a receiver, the last one, where there is no reference;
/// and a slice where there is neither.
fn reason(sheet: &Sheet, collected: &[u16], name: u16) -> Option<Reason> {
    if !is_extern(sheet, name) {
        return None;
    }
    let bears = |row: u16| matches!(sheet.rows[row as usize], Row::Ident(plain) if plain == name);
    let is_reference = |row: &Row| match *row {
        Row::Ref { flags, inner } => flags == MUTABLE && bears(inner),
        _ => false,
    };
    let is_slice = |row: &Row| match *row {
        Row::SliceRef { flags, inner } => flags == MUTABLE && bears(inner),
        _ => false,
    };
    let last = |test: &dyn Fn(&Row) -> bool| {
        let row = collected.iter().rfind(|&&row| test(&sheet.rows[row as usize]));
        row.map(|&row| Reason::Row(row))
    };
    let method = || {
        let item = sheet.items.iter().rposition(|item| is_method(item, name));
        item.map(|item| Reason::Item(item as u8))
    };
    last(&is_reference).or_else(method).or_else(|| last(&is_slice))
}

/// In cxx, by a CxxType or an alias, and neither struct nor enum.
fn is_extern(sheet: &Sheet, name: u16) -> bool {
    let borne = |test: fn(&Item) -> Option<u16>| {
        sheet.items.iter().filter_map(test).any(|other| other == name)
    };
    let cxx = borne(|item| match item {
        Item::CxxType { head, .. } | Item::TypeAlias { head } => Some(head.name),
        _ => None,
    });
    let shared = borne(|item| match item {
        Item::Struct { head, .. } | Item::Enum { head, .. } => Some(head.name),
        _ => None,
    });
    cxx && !shared
}

/// A method, of either language, with a mutable unpinned receiver of a name.
fn is_method(item: &Item, of: u16) -> bool {
    match item {
        Item::CxxFunction(function) | Item::RustFunction(function) => match function.form {
            Form::Method { name, flags } => name == of && flags == MUTABLE,
            Form::Free | Form::Associated(_) => false,
        },
        _ => false,
    }
}

/// Of an answer's reasons those that the Rust has too: of names that an alias
/// bears.
pub fn of_aliases(answer: &Answer) -> [Option<Reason>; 256] {
    let aliases = print::members(&answer.sets[4]);
    std::array::from_fn(|name| answer.unpin[name].filter(|_| aliases.contains(&name)))
}

/// What a reason may be by: in the order in which they stand.
pub const KINDS: [&str; 3] = ["slice", "receiver", "reference"];

/// Which of `KINDS` a reason of a sheet is by.
pub fn kind(sheet: &Sheet, reason: Reason) -> usize {
    match reason {
        Reason::Item(_) => 1,
        Reason::Row(row) => match &sheet.rows[row as usize] {
            Row::SliceRef { .. } => 0,
            Row::Ref { .. } => 2,
            row => panic!("no reason to be Unpin: {row:?}"),
        },
    }
}

/// A reason as a number (docs/LAYOUT.md): 0 for none, 1 + row, 32,768 + item.
pub fn number(reason: Option<Reason>) -> u16 {
    match reason {
        None => 0,
        Some(Reason::Row(row)) => 1 + row,
        Some(Reason::Item(item)) => 32_768 + item as u16,
    }
}
