//! A refusal in words: what the reader expected, and the bytes around.

use crate::command::style::Style;
use crate::sheet::reader::Fault;
use std::fmt::Write;
use std::ops::Range;

/// Bytes that are shown before the position, and in all.
const BEFORE: usize = 8;
const SHOWN: usize = 20;

/// `verdict` is the library's; the fault says more of the same refusal, if it is the same.
pub fn push(out: &mut String, verdict: (u8, u32), fault: Option<&Fault>, bytes: &[u8], style: &Style) {
    let (number, position) = (verdict.0, verdict.1 as usize);
    if let Some(fault) = fault.filter(|fault| (fault.number, fault.position) == (number, position)) {
        let found = fault.found.map_or(String::new(), |found| format!("found {found}, "));
        let _ = writeln!(out, " {}-->{} {}", style.frame, style.end, fault.place);
        push_line(out, &format!("{found}expected {}", fault.expected), style);
        push_line(out, "", style);
    }
    let aligned = position & !1;
    let window = aligned.saturating_sub(BEFORE)..aligned.saturating_sub(BEFORE).saturating_add(SHOWN).min(bytes.len());
    push_bytes(out, bytes, window, position, style);
}

/// A line of the frame.
fn push_line(out: &mut String, text: &str, style: &Style) {
    let blank = if text.is_empty() { "" } else { " " };
    let _ = writeln!(out, "  {}|{}{blank}{text}", style.frame, style.end);
}

/// Places, bytes and pairs, with marks under the position.
fn push_bytes(out: &mut String, bytes: &[u8], window: Range<usize>, position: usize, style: &Style) {
    let [mut places, mut hex, mut pairs, mut marks] = ["byte", "hex ", "pair", "    "].map(str::to_owned);
    let cells: Vec<(usize, &[u8])> = window.clone().step_by(2).zip(bytes[window.clone()].chunks(2)).collect();
    for &(at, cell) in &cells {
        let _ = write!(places, "{at:>7}");
        let shown = cell.iter().map(|byte| format!("{byte:02x}")).collect::<Vec<_>>().join(" ");
        let _ = write!(hex, "  {shown:<5}");
        let pair = if let [low, high] = cell { u16::from_le_bytes([*low, *high]).to_string() } else { String::new() };
        let _ = write!(pairs, "{pair:>7}");
        marks += if at == position & !1 && position < bytes.len() { "  ^^^^^" } else { "       " };
    }
    if position >= bytes.len() {
        places += &format!("{position:>7}");
        marks += "  ^ the sheet ends here";
    }
    for line in [places, hex, pairs] {
        push_line(out, line.trim_end(), style);
    }
    let marks = marks.trim_end();
    push_line(out, &format!("{}{marks}{}", style.error, style.end), style);
}
