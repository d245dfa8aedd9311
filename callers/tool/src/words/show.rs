//! `tirvouez show`: a sheet as text, as far as it was read.

use crate::command::arguments::Form;
use crate::command::run::{Context, Said, Status};
use crate::command::style::Style;
use crate::sheet::reader;
use crate::sheet::{Body, Pairs};
use crate::text::json;
use crate::text::number::{self, Count};
use crate::text::refusal;
use crate::text::view::View;
use std::fmt::Write;
use tirvouez::Answer;

type Verdict = Result<(), (u8, u32)>;

/// Where a line's comment begins.
const COMMENT: usize = 32;

pub fn show(context: &Context, file: &str, sheet: &[u8], answer: Answer) -> Said {
    let (read, fault) = reader::read(sheet);
    let view = View::new(read, context.names);
    let (mut out, mut err) = (String::new(), String::new());
    let verdict = answer.verdict();
    match context.form {
        Form::Json => push_json(&mut out, file, verdict, &view),
        Form::Rows => {
            push_rows(&mut out, &view);
            if let Err((number, position)) = verdict {
                err = format!("{file}: refused {number} at {position}\n");
            }
        }
        _ => {
            push_text(&mut out, file, verdict, &view, &context.style);
            if let Err(verdict) = verdict {
                refusal::push(&mut out, verdict, fault.as_ref(), sheet, &context.style);
            }
            out.push('\n');
        }
    }
    Said { out, err, status: if verdict.is_err() { Status::Refused } else { Status::Clean } }
}

/// Rows and items with their texts, each under its word.
fn texts<'v, 'a>(view: &'v View<'a>) -> [(&'static str, Vec<(String, &'v Body<'a>)>); 2] {
    let of_row = |(row, body)| (view.types.text(row).to_owned(), body);
    let of_item = |(item, body)| {
        let mut text = String::new();
        if let Some(declaration) = view.declaration(item) {
            declaration.push(&mut text, &view.types);
        }
        (text, body)
    };
    [("row", (0..).zip(&view.sheet.rows).map(of_row).collect()), ("item", (0..).zip(&view.sheet.items).map(of_item).collect())]
}

fn push_json(out: &mut String, file: &str, verdict: Verdict, view: &View) {
    json::begin(out, file, verdict);
    for (word, texts) in texts(view) {
        json::key(out, &format!("{word}s"));
        json::list(out, texts, |out, (text, _)| json::string(out, &text));
    }
    out.push_str("}\n");
}

fn push_text(out: &mut String, file: &str, verdict: Verdict, view: &View, style: &Style) {
    let (rows, items) = (Count(view.sheet.rows.len(), "row"), Count(view.sheet.items.len(), "item"));
    let refused = verdict.map_or_else(|(number, position)| format!("refused {number} at {position} after "), |()| String::new());
    let _ = writeln!(out, "{}{file}{}: {refused}{rows}, {items}", style.bold, style.end);
    for (word, texts) in texts(view) {
        for (number, (text, _)) in texts.into_iter().enumerate() {
            let _ = writeln!(out, "{}{word} {number}:{} {text}", style.frame, style.end);
        }
    }
}

/// Lines that `tirvouez make` reads, each with its text as a comment.
fn push_rows(out: &mut String, view: &View) {
    for (word, texts) in texts(view) {
        for (number, (text, body)) in texts.into_iter().enumerate() {
            let start = out.len();
            out.push_str(word);
            out.push(' ');
            push_pairs(out, body.pairs);
            while out.len() < start + COMMENT {
                out.push(' ');
            }
            let _ = writeln!(out, " # {number}: {text}");
        }
    }
}

/// All pairs, in decimal, with blanks between.
fn push_pairs(out: &mut String, pairs: Pairs) {
    for (number, pair) in pairs.iter().enumerate() {
        out.push_str(if number > 0 { " " } else { "" });
        number::push(out, usize::from(pair));
    }
}
