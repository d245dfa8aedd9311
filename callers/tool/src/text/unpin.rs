//! Which C++ names must be Unpin, and why, in words.

use crate::command::style::Style;
use crate::sheet::{Form, row};
use crate::text::place;
use crate::text::types;
use crate::text::view::View;
use std::fmt::Write;
use tirvouez::{Answer, UnpinReason};

/// A line for each name, in the order of the names, after a blank one.
pub fn push(out: &mut String, answer: Answer, view: &View, style: &Style) {
    for (number, (name, reason)) in answer.unpin_reasons().enumerate() {
        out.push_str(if number == 0 { "\n" } else { "" });
        let _ = write!(out, "{}must be Unpin{}: {}, because of ", style.bold, style.end, view.names.of(name.into()));
        match reason {
            UnpinReason::Row(row) => push_row(out, row, view),
            UnpinReason::Item(item) => push_item(out, item.into(), view),
        }
        out.push('\n');
    }
}

/// ``row 3 (slice `&mut [n27]` in argument 0 of item 4)``
fn push_row(out: &mut String, row: u16, view: &View) {
    let what = if view.sheet.row(row).is_some_and(|body| body.kind == row::SLICE) { "slice" } else { "reference" };
    let _ = write!(out, "row {row} ({what} `{}`", view.types.text(row));
    if let Some(used) = view.first_use(row) {
        out.push_str(" in ");
        place::push_use(out, used, view);
    }
    out.push(')');
}

/// ``item 8 (method `n30` with `self: &mut n27`)``
fn push_item(out: &mut String, item: u16, view: &View) {
    let _ = write!(out, "item {item}");
    let Some(body) = view.sheet.item(item) else { return };
    if let Form::Method { name, flags } = body.form {
        let receiver = types::receiver(flags, view.names.of(name));
        let _ = write!(out, " (method `{}` with `{receiver}`)", view.names.of(body.name));
    }
}
