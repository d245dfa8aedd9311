//! The Rust's own text of each message: docs/MESSAGES.md's tables, with what varies put in.

use crate::sheet::{Body, DERIVED, Form, item};
use crate::text::view::View;
use std::borrow::Cow;
use std::sync::LazyLock;
use tirvouez::Record;

/// In a text of the page: a part that varies.
const VARIES: char = '…';

/// Texts by message, and by branch of `describe`; cut where something varies.
struct Page {
    messages: Vec<Vec<&'static str>>,
    branches: Vec<Vec<&'static str>>,
    /// By message and detail, the texts that these decide.
    decided: Vec<Vec<String>>,
}

static PAGE: LazyLock<Page> = LazyLock::new(|| {
    let page = include_str!("../../../../docs/MESSAGES.md");
    let (messages, branches) = page.split_once("### The branches of `describe`").unwrap_or((page, ""));
    let (messages, _) = messages.split_once("## Details").unwrap_or((messages, ""));
    let (messages, branches) = (column(messages, "Text"), column(branches, "Text"));
    let decided = (0..).zip(&messages).map(|(message, pieces)| decided(message, pieces, &branches)).collect();
    Page { messages, branches, decided }
});

/// The texts of a message by detail; empty where more than that decides it.
fn decided(message: u8, pieces: &[&str], branches: &[Vec<&str>]) -> Vec<String> {
    match (message, pieces) {
        (32 | 49 | 51, [before, behind]) => {
            branches.iter().map(|branch| if let [what] = branch[..] { format!("{before}{what}{behind}") } else { String::new() }).collect()
        }
        (_, [whole]) => vec![(*whole).to_owned()],
        _ => Vec::new(),
    }
}

/// A column of all tables of a text, by the number that a line begins with.
fn column(text: &'static str, heading: &str) -> Vec<Vec<&'static str>> {
    let (mut texts, mut place) = (Vec::new(), None);
    for line in text.lines() {
        let cells: Vec<&str> = line.split('|').map(str::trim).collect();
        if let Some(found) = cells.iter().position(|cell| *cell == heading) {
            place = Some(found);
        }
        let number = cells.get(1).and_then(|cell| cell.parse::<usize>().ok());
        if let (Some(number), Some(text)) = (number, place.and_then(|place| cells.get(place))) {
            texts.resize(texts.len().max(number + 1), Vec::new());
            texts[number] = text.trim_matches('`').trim().split(VARIES).collect();
        }
    }
    texts
}

/// The text of a record.
pub fn of(record: &Record, view: &View) -> String {
    let mut text = String::new();
    push(&mut text, record, view);
    text
}

pub fn push(out: &mut String, record: &Record, view: &View) {
    if let Some(text) = by_detail(record) {
        return out.push_str(text);
    }
    let Some(pieces) = PAGE.messages.get(usize::from(record.message)).filter(|pieces| !pieces.is_empty()) else {
        // a message of a later library
        return out.push_str(&format!("message {}", record.message));
    };
    let varying = varying(record, view);
    for (number, piece) in pieces.iter().enumerate() {
        if number > 0 {
            out.push_str(varying.get(number - 1).map_or("", |text| text));
        }
        out.push_str(piece);
    }
}

/// The text of a record, where message and detail decide it.
pub fn by_detail(record: &Record) -> Option<&'static str> {
    let texts = PAGE.decided.get(usize::from(record.message))?;
    texts.get(usize::from(record.detail)).filter(|text| !text.is_empty()).map(|text| &text[..])
}

/// What stands in the place of each part that varies.
fn varying<'v>(record: &Record, view: &'v View) -> [Cow<'v, str>; 2] {
    let (row, item) = (view.sheet.row(record.first), view.sheet.item(record.first));
    let name = |name: u16| Cow::Borrowed(view.names.of(name));
    let none = Cow::Borrowed("");
    let first = match (record.message, row, item) {
        (1, _, Some(item)) => Cow::Owned(declared(item, view)),
        (3, Some(row), _) => name(row.name),
        (18, Some(row), _) => row.row().and_then(|inner| view.sheet.plain_name(inner)).map_or("CxxVector<...>".into(), name),
        (23, Some(row), _) => {
            let note = if record.detail == 1 { ": opaque C++ type is not supported yet" } else { "" };
            return [mutable(row.has(1)), note.into()];
        }
        (29 | 52, _, Some(item)) => derive(item, record),
        (36, _, Some(item)) => return [derive(item, record), if item.kind == item::RUST_TYPE { "Rust" } else { "C++" }.into()],
        (32 | 49 | 51, ..) => branch(record, view),
        (34, ..) if record.detail > 0 => format!(" (found {})", record.detail).into(),
        (38, _, Some(item)) => view.by_value(item.name).into(),
        (40, _, Some(item)) => name(item.name),
        (41 | 44, _, Some(&Body { form: Form::Method { name: receiver, flags }, .. })) => {
            if record.message == 41 {
                mutable(flags & 1 != 0)
            } else {
                name(receiver)
            }
        }
        _ => none.clone(),
    };
    [first, none]
}

fn mutable(mutable: bool) -> Cow<'static, str> {
    if mutable { "mut " } else { "" }.into()
}

/// The item of message 1.
fn declared(body: &Body, view: &View) -> String {
    let name = view.names.of(body.name);
    match (body.kind, body.form.self_type()) {
        (item::CXX_FUNCTION | item::RUST_FUNCTION, Some(self_type)) => {
            format!("associated function `{}::{name}`", view.names.of(self_type))
        }
        (item::CXX_FUNCTION | item::RUST_FUNCTION, None) => format!("function `{name}`"),
        _ => format!("type `{name}`"),
    }
}

fn derive(body: &Body, record: &Record) -> Cow<'static, str> {
    body.derives.get(usize::from(record.second)).map_or("", |derive| DERIVED[usize::from(derive)]).into()
}

/// What `describe` says of a field, an argument or a return.
fn branch<'v>(record: &Record, view: &'v View) -> Cow<'v, str> {
    match PAGE.branches.get(usize::from(record.detail)).map(|pieces| &pieces[..]) {
        Some([whole]) => (*whole).into(),
        _ => Cow::Owned(view.place_row(record).map_or(String::new(), |row| view.types.text(row).to_owned())),
    }
}

#[cfg(test)]
mod tests {
    use super::PAGE;

    #[test]
    fn every_message_and_branch_has_a_text() {
        let numbers = |texts: &[Vec<&str>]| (1..texts.len()).filter(|&n| !texts[n].concat().is_empty()).count();
        assert_eq!((PAGE.messages.len(), numbers(&PAGE.messages)), (59, 58));
        // branch 8 is the name itself
        assert_eq!((PAGE.branches.len(), numbers(&PAGE.branches)), (22, 20));
        assert_eq!(PAGE.messages[44], ["mutable reference to opaque C++ type requires a pin -- use `self: Pin<&mut ", ">`"]);
    }
}
