//! Items as a person knows them from a bridge: `struct n24 { f0: n25 }`.

use crate::sheet::{Body, DERIVED, Form, Pairs, item};
use crate::text::columns::columns;
use crate::text::names::Names;
use crate::text::number::{self, Count};
use crate::text::types::{self, Types};
use std::ops::Range;

/// Columns of a line from which on a list of fields or arguments is cut: with what stands before it, eighty.
const WIDTH: usize = 76;

/// A part of a declaration that a diagnostic may be about.
#[derive(Clone, Copy, Debug, PartialEq, Eq)]
pub enum Part {
    Name,
    Derive(u16),
    Lifetime(u16),
    /// Of the fields or arguments.
    Listed(u16),
    Return,
    /// The row of an impl, or an enum's repr.
    Row,
    /// Of a method, or the self type of an associated function.
    Receiver,
    Bounds,
}

/// What stands before the fields or arguments and after them, and where other parts stand in it.
#[derive(Default)]
pub struct Declaration<'a> {
    head: String,
    letter: char,
    rows: Pairs<'a>,
    /// Columns of what stands around them.
    around: usize,
    /// Whether it is wider than a line.
    wide: bool,
    tail: String,
    in_head: Vec<(Part, Range<usize>)>,
    in_tail: Option<Range<usize>>,
}

impl<'a> Declaration<'a> {
    pub fn of(body: &Body<'a>, types: &Types, names: &Names) -> Self {
        let mut made = Self { head: String::with_capacity(WIDTH), ..Self::default() };
        made.derives(body.derives);
        match body.kind {
            item::INCLUDE => made.head += "include!(..)",
            item::STRUCT => made.strukt(body, names),
            item::ENUM => made.enumeration(body, types, names),
            item::CXX_TYPE | item::RUST_TYPE => made.extern_type(body, names),
            item::CXX_FUNCTION | item::RUST_FUNCTION => made.function(body, types, names),
            item::ALIAS => {
                made.named("extern \"C++\" type ", body, names);
                made.head += " = ..";
            }
            _ => made.implementation(body, types),
        }
        made.around = columns(&made.head) + columns(&made.tail);
        let listed = |sum: usize, (number, row)| {
            let between = if number > 0 { ", ".len() } else { 0 };
            Some(sum + between + listed_columns(number, row, types)).filter(|sum| *sum <= WIDTH)
        };
        made.wide = made.rows.iter().enumerate().try_fold(made.around, listed).is_none();
        made
    }

    fn part(&mut self, part: Part, write: impl FnOnce(&mut String)) {
        let start = self.head.len();
        write(&mut self.head);
        self.in_head.push((part, start..self.head.len()));
    }

    fn derives(&mut self, derives: Pairs) {
        for (number, derive) in derives.iter().enumerate() {
            self.head += if number > 0 { ", " } else { "#[derive(" };
            self.part(Part::Derive(number as u16), |text| *text += DERIVED[usize::from(derive)]);
        }
        self.head += if derives.is_empty() { "" } else { ")] " };
    }

    fn lifetimes(&mut self, lifetimes: Pairs) {
        for (number, lifetime) in lifetimes.iter().enumerate() {
            self.head += if number > 0 { ", " } else { "<" };
            self.part(Part::Lifetime(number as u16), |text| push_lifetime(text, lifetime));
        }
        self.head += if lifetimes.is_empty() { "" } else { ">" };
    }

    /// Keyword, name and lifetimes.
    fn named(&mut self, keyword: &str, body: &Body, names: &Names) {
        self.head += keyword;
        self.part(Part::Name, |text| *text += names.of(body.name));
        self.lifetimes(body.lifetimes);
    }

    fn strukt(&mut self, body: &Body<'a>, names: &Names) {
        self.named("struct ", body, names);
        (self.letter, self.rows) = ('f', body.rows);
        self.head += if body.rows.is_empty() { " {" } else { " { " };
        self.tail += if body.rows.is_empty() { "}" } else { " }" };
    }

    fn enumeration(&mut self, body: &Body, types: &Types, names: &Names) {
        let repr = |text: &mut String| types.push(text, body.row().unwrap_or_default());
        if body.explicit {
            self.head += "#[repr(";
            self.part(Part::Row, repr);
            self.head += ")] ";
        }
        self.named("enum ", body, names);
        if !body.explicit {
            self.head += " /* ";
            self.part(Part::Row, repr);
            self.head += " */";
        }
        let variants = Count(usize::from(body.variants), "variant");
        self.head += &format!(" {{ /* {variants}, {} default */ }}", body.defaults);
    }

    fn extern_type(&mut self, body: &Body, names: &Names) {
        self.head += if body.has(1) { "unsafe " } else { "" };
        self.named(if body.kind == item::CXX_TYPE { "extern \"C++\" type " } else { "extern \"Rust\" type " }, body, names);
        if body.has(2) {
            self.head += ": ";
            self.part(Part::Bounds, |text| *text += "..");
        }
    }

    fn function(&mut self, body: &Body<'a>, types: &Types, names: &Names) {
        if let Form::Associated(self_type) = body.form {
            self.head += "#[Self = \"";
            self.part(Part::Receiver, |text| *text += names.of(self_type));
            self.head += "\"] ";
        }
        self.head += if body.has(2) { "unsafe extern " } else { "extern " };
        self.head += match (body.kind == item::CXX_FUNCTION, body.has(4)) {
            (true, false) => "\"C++\" ",
            (true, true) => "\"C++-unwind\" ",
            (false, _) => "\"Rust\" ",
        };
        self.named(if body.has(1) { "unsafe fn " } else { "fn " }, body, names);
        self.head.push('(');
        if let Form::Method { name, flags } = body.form {
            self.part(Part::Receiver, |text| *text += &types::receiver(flags, names.of(name)));
            self.head += if body.rows.is_empty() { "" } else { ", " };
        }
        (self.letter, self.rows) = ('a', body.rows);
        self.tail.push(')');
        if let Some(ret) = body.ret {
            self.tail += " -> ";
            let start = self.tail.len();
            types.push(&mut self.tail, ret);
            self.in_tail = Some(start..self.tail.len());
        }
    }

    fn implementation(&mut self, body: &Body, types: &Types) {
        self.head += "impl";
        self.lifetimes(body.lifetimes);
        self.head += if body.has(1) { " !" } else { " " };
        self.part(Part::Row, |text| types.push(text, body.row().unwrap_or_default()));
        self.head += " {}";
    }

    /// The whole declaration.
    pub fn push(&self, out: &mut String, types: &Types) {
        out.push_str(&self.head);
        for number in 0..self.rows.len() {
            out.push_str(if number > 0 { ", " } else { "" });
            self.push_listed(out, types, number);
        }
        out.push_str(&self.tail);
    }

    fn push_listed(&self, out: &mut String, types: &Types, number: usize) {
        out.push(self.letter);
        number::push(out, number);
        out.push_str(": ");
        types.push(out, self.rows.get(number).unwrap_or_default());
    }

    /// The declaration; of one that is wider than a line, what has room after the head. `found` gets the places of the wanted parts.
    pub fn push_parts(&self, out: &mut String, types: &Types, wanted: &[Part], found: &mut Vec<Range<usize>>) {
        let head = out.len();
        out.push_str(&self.head);
        self.push_numbers(out, types, 0..self.rows.len(), &mut Vec::new());
        let tail = out.len();
        out.push_str(&self.tail);
        let in_tail = self.in_tail.iter().map(|span| (tail, Part::Return, span));
        let parts = self.in_head.iter().map(|(part, span)| (head, *part, span)).chain(in_tail);
        found.extend(parts.filter(|(_, part, _)| wanted.contains(part)).map(|(start, _, span)| start + span.start..start + span.end));
    }

    /// The declaration; of one that is wider than a line, only the wanted fields or arguments, whose numbers rise, as many as have room. `found`
    /// gets the places of those that are shown.
    pub fn push_near(&self, out: &mut String, types: &Types, wanted: impl Iterator<Item = usize>, found: &mut Vec<Range<usize>>) {
        out.push_str(&self.head);
        if self.wide {
            self.push_numbers(out, types, wanted, found);
        } else {
            let mut wanted = wanted.peekable();
            for number in 0..self.rows.len() {
                out.push_str(if number > 0 { ", " } else { "" });
                let start = out.len();
                self.push_listed(out, types, number);
                found.extend(wanted.next_if_eq(&number).map(|_| start..out.len()));
            }
        }
        out.push_str(&self.tail);
    }

    /// The first of these fields or arguments, and as many more as a line has room for; where others are left out, dots.
    fn push_numbers(&self, out: &mut String, types: &Types, numbers: impl Iterator<Item = usize>, found: &mut Vec<Range<usize>>) {
        let (mut next, mut sum) = (0, self.around);
        for number in numbers {
            let between = match (next, number) {
                (0, 0) => "",
                (0, _) => "..., ",
                (next, number) if next == number => ", ",
                _ => ", ..., ",
            };
            sum += between.len() + listed_columns(number, self.rows.get(number).unwrap_or_default(), types);
            let behind = if number + 1 < self.rows.len() { MORE.len() } else { 0 };
            if self.wide && next > 0 && sum + behind > WIDTH {
                break;
            }
            out.push_str(between);
            let start = out.len();
            self.push_listed(out, types, number);
            found.push(start..out.len());
            next = number + 1;
        }
        if next < self.rows.len() {
            out.push_str(if next > 0 { MORE } else { "..." });
        }
    }
}

/// Fields or arguments that are left out at the end.
const MORE: &str = ", ...";

/// Columns of `f0: u8`.
fn listed_columns(number: usize, row: u16, types: &Types) -> usize {
    let name = if number < 10 { "f0: ".len() } else { "f10: ".len() };
    name + types.columns(row)
}

pub fn push_lifetime(out: &mut String, lifetime: u16) {
    match lifetime {
        0 => out.push_str("'static"),
        _ => {
            out.push_str("'l");
            number::push(out, usize::from(lifetime));
        }
    }
}
