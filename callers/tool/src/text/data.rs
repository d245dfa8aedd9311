//! An answer as JSON.

use crate::sheet::LAST_NAME;
use crate::sheet::reader;
use crate::text::json;
use crate::text::messages;
use crate::text::names::Names;
use crate::text::number;
use crate::text::view::View;
use std::collections::HashMap;
use std::fmt::Write;
use tirvouez::{Answer, Letter, Record, Set, UnpinReason};

const SETS: [(&str, Set); 8] = [
    ("structs", Set::Structs),
    ("enums", Set::Enums),
    ("cxx", Set::Cxx),
    ("rust", Set::Rust),
    ("aliases", Set::Aliases),
    ("untrusted", Set::Untrusted),
    ("required_trivial", Set::RequiredTrivial),
    ("improper", Set::Improper),
];

/// The object of a sheet, and the end of its line.
pub fn push(out: &mut String, file: &str, sheet: &[u8], answer: Answer, names: &Names) {
    json::begin(out, file, answer.verdict());
    if answer.verdict().is_ok() {
        json::key(out, "total");
        number::push(out, answer.total());
        push_sets(out, answer);
        push_reasons(out, answer);
        push_unpin(out, answer);
        json::key(out, "order");
        json::numbers(out, answer.order().iter().map(|&item| usize::from(item)));
        json::key(out, "tiers");
        json::numbers(out, answer.order().iter().map(|&item| usize::from(answer.tiers()[usize::from(item)])));
        json::key(out, "records");
        push_records(out, sheet, answer, names);
    }
    out.push_str("}\n");
}

fn push_sets(out: &mut String, answer: Answer) {
    json::key(out, "sets");
    out.push('{');
    for (name, set) in SETS {
        json::key(out, name);
        json::numbers(out, (0..=LAST_NAME as u8).filter(|&name| answer.has(set, name)).map(usize::from));
    }
    out.push('}');
}

fn push_reasons(out: &mut String, answer: Answer) {
    json::key(out, "reasons");
    out.push('{');
    for name in (0..=LAST_NAME as u8).filter(|&name| answer.reasons(name) > 0) {
        json::key(out, &name.to_string());
        number::push(out, usize::from(answer.reasons(name)));
    }
    out.push('}');
}

fn push_unpin(out: &mut String, answer: Answer) {
    json::key(out, "unpin");
    out.push('{');
    for (name, reason) in answer.unpin_reasons() {
        json::key(out, &name.to_string());
        let _ = match reason {
            UnpinReason::Row(row) => write!(out, "{{\"row\":{row}}}"),
            UnpinReason::Item(item) => write!(out, "{{\"item\":{item}}}"),
        };
    }
    out.push('}');
}

fn push_records(out: &mut String, sheet: &[u8], answer: Answer, names: &Names) {
    if answer.total() == 0 {
        return out.push_str("[]");
    }
    let view = View::new(reader::read_accepted(sheet), names);
    // room for most of what is said
    out.reserve(100 * answer.total());
    // what stands before and behind the numbers, for texts that message and detail decide
    let mut decided = HashMap::new();
    json::list(out, answer.records(), |out, record| {
        let made;
        let (before, behind) = if messages::by_detail(&record).is_some() {
            decided.entry((record.message, record.letter, record.detail)).or_insert_with(|| around(&record, &view))
        } else {
            made = around(&record, &view);
            &made
        };
        out.push_str(before);
        number::push(out, usize::from(record.first));
        if Letter::of(record.letter).is_none_or(Letter::has_second) {
            out.push(',');
            number::push(out, usize::from(record.second));
        }
        out.push_str(behind);
    });
}

/// A record's object before its numbers, and behind.
fn around(record: &Record, view: &View) -> (String, String) {
    let before = format!("{{\"message\":{},\"place\":\"{}\",\"numbers\":[", record.message, char::from(record.letter));
    let mut behind = format!("],\"detail\":{},\"text\":", record.detail);
    json::string(&mut behind, &messages::of(record, view));
    behind.push('}');
    (before, behind)
}
