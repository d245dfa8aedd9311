//! A diagnostic's place in words: `field 2 of item 1`, ``row 3, `Vec<n25>`, in argument 0 of item 4``.

use crate::sheet::item;
use crate::text::declaration::Part;
use crate::text::number;
use crate::text::uses::Use;
use crate::text::view::View;
use tirvouez::{Letter, Record};

/// The place of a record, or of several that differ by the numbers of the parts.
pub fn push(out: &mut String, record: &Record, numbers: &[u16], view: &View) {
    let Record { letter, first, .. } = *record;
    match Letter::of(letter) {
        Some(Letter::Row) => push_row(out, first, view),
        Some(Letter::RowArgument) => {
            push_numbers(out, "argument", numbers);
            out.push_str(" of ");
            push_row(out, first, view);
        }
        Some(letter) => {
            match letter {
                Letter::Field => push_numbers(out, "field", numbers),
                Letter::Argument => push_numbers(out, "argument", numbers),
                Letter::Derive => push_numbers(out, "derive", numbers),
                Letter::Lifetime => push_numbers(out, "lifetime", numbers),
                Letter::Return => out.push_str("the return"),
                _ => {}
            }
            out.push_str(if letter == Letter::Item { "item " } else { " of item " });
            number::push(out, usize::from(first));
        }
        None => out.push_str(&format!("place {letter} {first}")),
    }
}

fn push_row(out: &mut String, row: u16, view: &View) {
    out.push_str("row ");
    number::push(out, usize::from(row));
    out.push_str(", `");
    out.push_str(view.types.text(row));
    out.push('`');
    if let Some(used) = view.first_use(row) {
        out.push_str(", in ");
        push_use(out, used, view);
    }
}

/// `argument 0 of item 4`
pub fn push_use(out: &mut String, used: Use, view: &View) {
    let kind = view.sheet.item(used.item).map(|body| body.kind);
    match used.part {
        Part::Listed(number) => {
            out.push_str(if kind == Some(item::STRUCT) { "field " } else { "argument " });
            number::push(out, usize::from(number));
            out.push_str(" of ");
        }
        Part::Return => out.push_str("the return of "),
        Part::Row if kind == Some(item::ENUM) => out.push_str("the repr of "),
        _ => {}
    }
    out.push_str("item ");
    number::push(out, usize::from(used.item));
}

/// `field 2`; `fields 0, 2 to 5`.
fn push_numbers(out: &mut String, word: &str, numbers: &[u16]) {
    out.push_str(word);
    out.push_str(if numbers.len() > 1 { "s " } else { " " });
    for (number, run) in numbers.chunk_by(|a, b| a + 1 == *b).enumerate() {
        out.push_str(if number > 0 { ", " } else { "" });
        number::push(out, usize::from(run[0]));
        if let [_, .., last] = run {
            out.push_str(if run.len() > 2 { " to " } else { ", " });
            number::push(out, usize::from(*last));
        }
    }
}
