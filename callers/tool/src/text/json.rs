//! JSON, written part by part.

use crate::text::number;

/// A text, quoted.
pub fn string(out: &mut String, text: &str) {
    out.push('"');
    let mut from = 0;
    for (at, byte) in text.bytes().enumerate() {
        if byte < b' ' || byte == b'"' || byte == b'\\' {
            out.push_str(&text[from..at]);
            escape(out, byte);
            from = at + 1;
        }
    }
    out.push_str(&text[from..]);
    out.push('"');
}

fn escape(out: &mut String, byte: u8) {
    match byte {
        b'"' => out.push_str("\\\""),
        b'\\' => out.push_str("\\\\"),
        b'\n' => out.push_str("\\n"),
        _ => out.push_str(&format!("\\u{byte:04x}")),
    }
}

/// `"name":`, after a comma unless it is the first of its object.
pub fn key(out: &mut String, name: &str) {
    if !out.ends_with('{') {
        out.push(',');
    }
    string(out, name);
    out.push(':');
}

/// A list, each entry written by a function.
pub fn list<T>(out: &mut String, entries: impl IntoIterator<Item = T>, mut write: impl FnMut(&mut String, T)) {
    out.push('[');
    for (number, entry) in entries.into_iter().enumerate() {
        if number > 0 {
            out.push(',');
        }
        write(out, entry);
    }
    out.push(']');
}

pub fn numbers(out: &mut String, numbers: impl IntoIterator<Item = usize>) {
    list(out, numbers, number::push);
}

/// The beginning of every object: which file, and whether its sheet is accepted; where it is not, why.
pub fn begin(out: &mut String, file: &str, verdict: Result<(), (u8, u32)>) {
    out.push('{');
    key(out, "file");
    string(out, file);
    key(out, "accepted");
    match verdict {
        Ok(()) => out.push_str("true"),
        Err((refusal, position)) => {
            out.push_str("false");
            key(out, "refusal");
            number::push(out, usize::from(refusal));
            key(out, "position");
            number::push(out, position as usize);
        }
    }
}
