//! Diagnostics in words: for each the Rust's text, the place, and the declaration with the part marked. What is said of several parts of one
//! row or item is said once.

use crate::command::style::Style;
use crate::text::columns::columns;
use crate::text::declaration::Part;
use crate::text::messages;
use crate::text::number;
use crate::text::place;
use crate::text::uses::Use;
use crate::text::view::View;
use std::iter::once;
use std::ops::Range;
use tirvouez::{Letter, Record};

const BLANKS: &str = "                                                                ";
const MARKS: &str = "^^^^^^^^^^^^^^^^^^^^^^^^^^^^^^^^";

/// What stands between number, text, place, declaration and marks.
struct Frame {
    number: String,
    text: String,
    place: String,
    declaration: String,
    marks: String,
    end: String,
    note: String,
}

/// What is said of parts of one row or item: the first record, and the parts' numbers.
struct Group {
    record: Record,
    numbers: Vec<u16>,
}

/// Writes diagnostics; has buffers that serve them all.
pub struct Diagnostics<'v, 'a> {
    view: &'v View<'a>,
    frame: Frame,
    marked: Vec<Range<usize>>,
}

impl<'v, 'a> Diagnostics<'v, 'a> {
    pub fn new(view: &'v View<'a>, style: Style) -> Self {
        let Style { bold, error, frame, end, .. } = style;
        let frame = Frame {
            number: format!("\n{error}error["),
            text: format!("]{end}{bold}: "),
            place: format!("{end}\n {frame}-->{end} "),
            declaration: format!("\n  {frame}|{end} "),
            marks: format!("\n  {frame}|{end} {error}"),
            end: format!("{end}\n"),
            note: format!("  {frame}={end} #"),
        };
        Self { view, frame, marked: Vec::new() }
    }

    pub fn push(&mut self, out: &mut String, records: &[Record]) {
        // by what is said; the lists serve every run
        let (mut said, mut groups) = (Vec::new(), Vec::<Group>::new());
        let mut rest = records;
        while let Some(first) = rest.first() {
            let parted = Letter::of(first.letter).is_some_and(Letter::has_second);
            let same = |record: &&Record| (record.letter, record.first) == (first.letter, first.first);
            let (run, behind) = rest.split_at(if parted { rest.iter().take_while(same).count() } else { 1 });
            rest = behind;
            said.clear();
            let derives = first.letter == Letter::Derive as u8;
            for record in run {
                let says = says(record, if derives { self.derive(record) } else { 0 });
                let place = said.iter().position(|other| *other == says).unwrap_or(said.len());
                if place == said.len() {
                    said.push(says);
                    begin(&mut groups, place, record);
                }
                groups[place].numbers.push(record.second);
            }
            for group in &groups[..said.len()] {
                self.push_group(out, group);
            }
        }
    }

    /// The derive that a record is about.
    fn derive(&self, record: &Record) -> u16 {
        let derives = self.view.sheet.item(record.first).map(|item| item.derives);
        derives.and_then(|derives| derives.get(usize::from(record.second))).unwrap_or_default()
    }

    fn push_group(&mut self, out: &mut String, group: &Group) {
        out.push_str(&self.frame.number);
        number::push(out, usize::from(group.record.message));
        out.push_str(&self.frame.text);
        messages::push(out, &group.record, self.view);
        out.push_str(&self.frame.place);
        place::push(out, &group.record, &group.numbers, self.view);
        match self.view.place(&group.record) {
            Some(used) => self.push_declaration(out, used, group),
            None => out.push('\n'),
        }
    }

    fn push_declaration(&mut self, out: &mut String, used: Use, group: &Group) {
        let Some(declaration) = self.view.declaration(used.item) else { return out.push('\n') };
        let types = &self.view.types;
        self.marked.clear();
        out.push_str(&self.frame.declaration);
        let start = out.len();
        let of_row = matches!(Letter::of(group.record.letter), Some(Letter::Row | Letter::RowArgument));
        match used.part {
            Part::Listed(number) if of_row => declaration.push_near(out, types, once(usize::from(number)), &mut self.marked),
            Part::Listed(_) => declaration.push_near(out, types, group.numbers.iter().map(|&number| usize::from(number)), &mut self.marked),
            part if of_row => declaration.push_parts(out, types, &[part], &mut self.marked),
            _ => {
                let parts: Vec<Part> = group.records().filter_map(|record| self.view.place(&record)).map(|used| used.part).collect();
                declaration.push_parts(out, types, &parts, &mut self.marked);
            }
        }
        let inside = if of_row { self.mark_row(used, group) } else { None };
        let line = out.len();
        out.push_str(&self.frame.marks);
        self.push_marks(out, start, line);
        out.push_str(&self.frame.end);
        if let Some(row) = inside {
            self.push_long(out, row);
        }
        if !of_row {
            self.push_longs(out, group);
        }
    }

    /// Marks the row within the part that uses it, or its arguments that are meant. Gives the row in whose number it is hidden, if it is.
    fn mark_row(&mut self, used: Use, group: &Group) -> Option<u16> {
        let types = &self.view.types;
        let Record { first: row, letter, .. } = group.record;
        let outer = self.view.used_row(used)?;
        let (shown, span) = types.find(outer, row)?;
        let [part] = &self.marked[..] else { return None };
        // a part ends with its type
        let whole = types.find(outer, outer)?.1.len();
        let start = part.end - whole + span.start;
        self.marked.clear();
        let argument = |number: &u16| types.parts(row).get(usize::from(*number)).map(|(_, span)| span);
        if letter == Letter::RowArgument as u8 && shown == row && !types.is_long(row) {
            self.marked.extend(group.numbers.iter().filter_map(argument).map(|span| start + span.start..start + span.end));
        } else {
            self.marked.push(start..start + span.len());
        }
        Some(shown).filter(|shown| *shown != row)
    }

    /// What the types of fields, arguments or a return are that are marked and written by their numbers.
    fn push_longs(&self, out: &mut String, group: &Group) {
        let mut told = Vec::new();
        let shown = group.records().take(self.marked.len());
        for row in shown.filter_map(|record| self.view.place_row(&record)).filter(|row| self.view.types.is_long(*row)) {
            if !told.contains(&row) {
                told.push(row);
                self.push_long(out, row);
            }
        }
    }

    /// What a row is that is written by its number.
    fn push_long(&self, out: &mut String, row: u16) {
        out.push_str(&self.frame.note);
        number::push(out, usize::from(row));
        out.push_str(" is `");
        out.push_str(self.view.types.text(row));
        out.push_str("`\n");
    }

    /// Marks under the parts of the line that stands from `start` to `line`.
    fn push_marks(&self, out: &mut String, start: usize, line: usize) {
        let ascii = out[start..line].is_ascii();
        let mut at = start;
        for mark in &self.marked {
            for (part, signs) in [(at..mark.start, BLANKS), (mark.clone(), MARKS)] {
                let mut columns = if ascii { part.len() } else { columns(&out[part]) };
                while columns > 0 {
                    let some = columns.min(signs.len());
                    out.push_str(&signs[..some]);
                    columns -= some;
                }
            }
            at = mark.end;
        }
    }
}

impl Group {
    fn records(&self) -> impl Iterator<Item = Record> {
        self.numbers.iter().map(|&second| Record { second, ..self.record })
    }
}

/// Begins a group in a place that may have held another.
fn begin(groups: &mut Vec<Group>, place: usize, record: &Record) {
    match groups.get_mut(place) {
        Some(group) => {
            group.record = *record;
            group.numbers.clear();
        }
        None => groups.push(Group { record: *record, numbers: Vec::new() }),
    }
}

/// What a record says of its part, message, detail and derive in one number: records of one letter and one row or item that say the same
/// have the same text.
fn says(record: &Record, derive: u16) -> u64 {
    u64::from(record.message) << 32 | u64::from(record.detail) << 16 | u64::from(derive)
}
