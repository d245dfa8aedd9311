//! `tirvouez check`: what is wrong with a sheet, in words or as data.

use crate::command::arguments::Form;
use crate::command::run::{Context, Said, Status};
use crate::command::style::Style;
use crate::sheet::reader;
use crate::text::data;
use crate::text::diagnostics::Diagnostics;
use crate::text::number::Count;
use crate::text::refusal;
use crate::text::unpin;
use crate::text::view::View;
use tirvouez::{Answer, Record};

pub fn check(context: &Context, file: &str, sheet: &[u8], answer: Answer) -> Said {
    let status = match answer.verdict() {
        Ok(()) if answer.total() == 0 => Status::Clean,
        Ok(()) => Status::Diagnostics,
        Err(_) => Status::Refused,
    };
    let mut out = String::new();
    match context.form {
        Form::Json => data::push(&mut out, file, sheet, answer, context.names),
        Form::Brief => push_verdict(&mut out, file, answer, &context.style),
        _ => {
            push_verdict(&mut out, file, answer, &context.style);
            push_words(&mut out, context, sheet, answer);
        }
    }
    Said { out, err: String::new(), status }
}

/// `FILE: accepted`, `FILE: accepted, 2 diagnostics`, `FILE: refused 7 at 12`.
pub fn push_verdict(out: &mut String, file: &str, answer: Answer, style: &Style) {
    let Style { bold, error, good, end, .. } = style;
    let verdict = match (answer.verdict(), answer.total()) {
        (Ok(()), 0) => format!("{good}accepted{end}"),
        (Ok(()), total) => format!("accepted, {error}{}{end}", Count(total, "diagnostic")),
        (Err((number, position)), _) => format!("{error}refused {number} at {position}{end}"),
    };
    *out += &format!("{bold}{file}{end}: {verdict}\n");
}

/// What makes the verdict, if it is not a clean one, and which names must be Unpin.
fn push_words(out: &mut String, context: &Context, sheet: &[u8], answer: Answer) {
    if let Err(verdict) = answer.verdict() {
        let (_, fault) = reader::read(sheet);
        refusal::push(out, verdict, fault.as_ref(), sheet, &context.style);
    } else if answer.total() > 0 || answer.unpin_reasons().next().is_some() {
        let view = View::new(reader::read_accepted(sheet), context.names);
        let records: Vec<Record> = answer.records().collect();
        // room for most of what is said
        out.reserve(100 * records.len());
        Diagnostics::new(&view, context.style).push(out, &records);
        unpin::push(out, answer, &view, &context.style);
    } else {
        return;
    }
    out.push('\n');
}
