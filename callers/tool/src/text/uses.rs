//! Where rows and names are used: the first item that comes to each row, and what a name that must be trivial is used as.

use crate::sheet::{Body, NAMES, Sheet, item, row};
use crate::text::declaration::Part;
use crate::text::names::Names;

/// The item and the part of it that a row is in.
#[derive(Clone, Copy, Debug, PartialEq, Eq)]
pub struct Use {
    pub item: u16,
    pub part: Part,
}

/// For each row the first use, in the order of collecting; none for a row that no item comes to.
pub fn first(sheet: &Sheet) -> Vec<Option<Use>> {
    let mut found = vec![None; sheet.rows.len()];
    let (mut left, mut open) = (found.len(), Vec::new());
    for (number, body) in sheet.items.iter().enumerate() {
        if left == 0 {
            break;
        }
        for (part, row) in of_item(body) {
            let mut next = Some(row);
            while let Some(row) = next {
                let place = &mut found[usize::from(row)];
                if place.is_none() {
                    *place = Some(Use { item: number as u16, part });
                    left -= 1;
                    let body = &sheet.rows[usize::from(row)];
                    open.extend(body.rows.iter().chain(body.ret));
                }
                next = open.pop();
            }
        }
    }
    found
}

/// The rows that an item uses, in the order of collecting.
pub fn of_item(body: &Body) -> impl Iterator<Item = (Part, u16)> {
    let part = |number: usize| match body.kind {
        item::STRUCT | item::CXX_FUNCTION | item::RUST_FUNCTION => Part::Listed(number as u16),
        _ => Part::Row,
    };
    let listed = body.rows.iter().enumerate().map(move |(number, row)| (part(number), row));
    listed.chain(body.ret.map(|row| (Part::Return, row)))
}

/// What a name is used as by value, by trivial.rs: `field of`, `argument of`, `return value of` with the first three that say so, ..
#[derive(Clone, Default)]
pub struct ByValue {
    of: [Vec<u16>; 3],
    boxed: bool,
    in_vec: bool,
    in_slice: bool,
    in_mut_slice: bool,
}

/// By name.
pub fn by_value(sheet: &Sheet, first: &[Option<Use>]) -> Vec<ByValue> {
    let mut names = vec![ByValue::default(); NAMES];
    for body in &sheet.items {
        for (part, row) in of_item(body) {
            if let (Some(way), Some(name)) = (way(body, part), sheet.plain_name(row)) {
                names[usize::from(name)].said_by(way, body.name);
            }
        }
    }
    for (body, _) in sheet.rows.iter().zip(first).filter(|(_, used)| used.is_some()) {
        if let Some(name) = body.row().and_then(|inner| sheet.plain_name(inner)) {
            let used = &mut names[usize::from(name)];
            match (body.kind, body.has(1)) {
                (row::BOX, _) => used.boxed = true,
                (row::VEC, _) => used.in_vec = true,
                (row::SLICE, false) => used.in_slice = true,
                (row::SLICE, true) => used.in_mut_slice = true,
                _ => {}
            }
        }
    }
    names
}

fn way(body: &Body, part: Part) -> Option<usize> {
    match part {
        Part::Listed(_) if body.kind == item::STRUCT => Some(0),
        Part::Listed(_) => Some(1),
        Part::Return => Some(2),
        _ => None,
    }
}

impl ByValue {
    fn said_by(&mut self, way: usize, item: u16) {
        let items = &mut self.of[way];
        if items.len() < 3 && !items.contains(&item) {
            items.push(item);
        }
    }

    /// The words of `as_what`.
    pub fn text(&self, name: &str, names: &Names) -> String {
        let mut clauses: Vec<(&str, String)> = Vec::new();
        for ((article, what), items) in [("a", "field of"), ("an", "argument of"), ("a", "return value of")].iter().zip(&self.of) {
            let items: Vec<_> = items.iter().map(|&item| format!("`{}`", names.of(item))).collect();
            if !items.is_empty() {
                clauses.push((article, format!("{what} {}", items.join(", "))));
            }
        }
        if self.boxed {
            clauses.push(("type", format!("Box<{name}>")));
        }
        if self.in_vec {
            clauses.push(("a", format!("vector element in Vec<{name}>")));
        }
        let slices = [(self.in_slice, format!("&[{name}]")), (self.in_mut_slice, format!("&mut [{name}]"))];
        let slices: Vec<_> = slices.into_iter().filter(|(used, _)| *used).map(|(_, text)| text).collect();
        if !slices.is_empty() {
            clauses.push(("a", format!("slice element in {}", slices.join(" and "))));
        }
        let mut text = String::new();
        for (number, (article, clause)) in clauses.iter().enumerate() {
            match number {
                0 => text = format!("{article} "),
                _ if number + 1 < clauses.len() => text += ", ",
                _ => text += " or ",
            }
            text += clause;
        }
        text
    }
}
