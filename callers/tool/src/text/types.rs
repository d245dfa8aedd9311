//! Rows as a person knows them from a bridge: `[u8; 4]`, `UniquePtr<n27>`.

use crate::sheet::{Body, ROWS, Sheet, row};
use crate::text::columns::columns;
use crate::text::names::Names;
use crate::text::number;
use std::ops::Range;

/// A type within another text is written as `#7`, by its row, where its own text is longer and more than a name. So no text grows beyond
/// bounds, whatever rows name.
const LONG: usize = 60;

/// A row's text in `Types`, and which rows stand in it.
struct Written {
    text: Range<usize>,
    parts: Range<usize>,
    /// Within another text, where it may be a number.
    columns: usize,
    long: bool,
}

/// The text of every row.
#[derive(Default)]
pub struct Types {
    texts: String,
    /// Rows that stand in another's text, and where.
    parts: Vec<(u16, Range<usize>)>,
    rows: Vec<Written>,
}

impl Types {
    pub fn of(sheet: &Sheet, names: &Names) -> Self {
        let mut types = Self::default();
        let mut text = String::new();
        for (row, body) in sheet.rows.iter().enumerate() {
            text.clear();
            let (start, first) = (types.texts.len(), types.parts.len());
            types.push_type(&mut text, body, names);
            types.texts += &text;
            let long = body.kind != row::IDENT && text.len() > LONG;
            let columns = if long { 1 + row.to_string().len() } else { columns(&text) };
            types.rows.push(Written { text: start..types.texts.len(), parts: first..types.parts.len(), columns, long });
        }
        types
    }

    /// The whole text of a row.
    pub fn text(&self, row: u16) -> &str {
        self.rows.get(usize::from(row)).map_or("", |written| &self.texts[written.text.clone()])
    }

    /// The columns of a row's text within another.
    pub fn columns(&self, row: u16) -> usize {
        self.rows.get(usize::from(row)).map_or(0, |written| written.columns)
    }

    /// The text of a row within another text.
    pub fn push(&self, out: &mut String, row: u16) {
        match self.rows.get(usize::from(row)) {
            Some(Written { long: true, .. }) => {
                out.push('#');
                number::push(out, usize::from(row));
            }
            Some(Written { text, .. }) => out.push_str(&self.texts[text.clone()]),
            None => {}
        }
    }

    /// Whether a row is written by its number within another text.
    pub fn is_long(&self, row: u16) -> bool {
        self.rows.get(usize::from(row)).is_some_and(|written| written.long)
    }

    /// The rows that stand in a row's text, and where. Of an Fn, the arguments come first.
    pub fn parts(&self, row: u16) -> &[(u16, Range<usize>)] {
        self.rows.get(usize::from(row)).map_or(&[], |written| &self.parts[written.parts.clone()])
    }

    /// Where a row stands in another's text, as that is written within a text; where it is inside one that is written by its number, that one.
    pub fn find(&self, outer: u16, wanted: u16) -> Option<(u16, Range<usize>)> {
        let written = self.rows.get(usize::from(outer))?;
        if outer == wanted || written.long && self.contains(outer, wanted) {
            // all of it is written, or its number, which has a column for each byte
            return Some((outer, 0..if written.long { written.columns } else { written.text.len() }));
        }
        if written.long {
            return None;
        }
        let within = |(row, span): &(u16, Range<usize>)| {
            let (shown, found) = self.find(*row, wanted)?;
            Some((shown, span.start + found.start..span.start + found.end))
        };
        self.parts(outer).iter().find_map(within)
    }

    /// Whether a row comes to another, which has a smaller number.
    fn contains(&self, outer: u16, wanted: u16) -> bool {
        let (mut seen, mut open) = (vec![false; self.rows.len()], vec![outer]);
        while let Some(row) = open.pop() {
            if row == wanted {
                return true;
            }
            if row > wanted && !std::mem::replace(&mut seen[usize::from(row)], true) {
                open.extend(self.parts(row).iter().map(|(part, _)| *part));
            }
        }
        false
    }

    /// Writes a row that stands in the text of the row that is being made.
    fn push_part(&mut self, out: &mut String, row: u16) {
        let start = out.len();
        self.push(out, row);
        self.parts.push((row, start..out.len()));
    }

    fn push_type(&mut self, out: &mut String, body: &Body, names: &Names) {
        let mutable = body.has(1);
        let (before, after) = match body.kind {
            row::IDENT => (names.of(body.name), ""),
            row::REF => reference(mutable, body.has(2)),
            row::PTR => (if mutable { "*mut " } else { "*const " }, ""),
            row::STR => ("&str", ""),
            row::SLICE => (if mutable { "&mut [" } else { "&[" }, "]"),
            row::ARRAY => ("[", ""),
            row::FN => return self.push_fn(out, body),
            row::BOX => ("Box<", ">"),
            row::VEC => ("Vec<", ">"),
            generic if !body.rows.is_empty() => {
                out.push_str(ROWS[usize::from(generic)].0);
                ("<", ">")
            }
            _ => ("()", ""),
        };
        out.push_str(before);
        if let Some(inner) = body.row() {
            self.push_part(out, inner);
        }
        out.push_str(after);
        if body.kind == row::ARRAY {
            out.push_str("; ");
            number::push(out, usize::from(body.array_length));
            out.push(']');
        }
    }

    fn push_fn(&mut self, out: &mut String, body: &Body) {
        out.push_str(if body.has(1) { "unsafe fn(" } else { "fn(" });
        for (number, argument) in body.rows.iter().enumerate() {
            out.push_str(if number > 0 { ", " } else { "" });
            self.push_part(out, argument);
        }
        out.push(')');
        let throws = body.has(2);
        if body.ret.is_none() && !throws {
            return;
        }
        out.push_str(if throws { " -> Result<" } else { " -> " });
        match body.ret {
            Some(ret) => self.push_part(out, ret),
            None => out.push_str("()"),
        }
        out.push_str(if throws { ">" } else { "" });
    }
}

/// `self: &mut n27`, by the flags of a method's receiver.
pub fn receiver(flags: u16, name: &str) -> String {
    let (before, after) = reference(flags & 1 != 0, flags & 2 != 0);
    format!("self: {before}{name}{after}")
}

/// What stands around the name of a reference's target.
fn reference(mutable: bool, pinned: bool) -> (&'static str, &'static str) {
    match (mutable, pinned) {
        (false, false) => ("&", ""),
        (true, false) => ("&mut ", ""),
        (false, true) => ("Pin<&", ">"),
        (true, true) => ("Pin<&mut ", ">"),
    }
}
