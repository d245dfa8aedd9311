//! How many columns of a terminal a text takes, and what would do things to it.

use std::ops::RangeInclusive;

/// Marks that are written over the character before, and what is not seen.
const NONE: [RangeInclusive<char>; 6] = [
    '\u{300}'..='\u{36f}',
    '\u{1ab0}'..='\u{1aff}',
    '\u{1dc0}'..='\u{1dff}',
    '\u{200b}'..='\u{200f}',
    '\u{20d0}'..='\u{20ff}',
    '\u{fe00}'..='\u{fe0f}',
];

/// Letters and signs of East Asia, and pictures.
const TWO: [RangeInclusive<char>; 8] = [
    '\u{1100}'..='\u{115f}',
    '\u{2e80}'..='\u{a4cf}',
    '\u{ac00}'..='\u{d7a3}',
    '\u{f900}'..='\u{faff}',
    '\u{ff00}'..='\u{ff60}',
    '\u{ffe0}'..='\u{ffe6}',
    '\u{1f300}'..='\u{1faff}',
    '\u{20000}'..='\u{3fffd}',
];

pub fn columns(text: &str) -> usize {
    if text.is_ascii() {
        return text.len();
    }
    let of = |c: char| match c {
        c if NONE.iter().any(|range| range.contains(&c)) => 0,
        c if TWO.iter().any(|range| range.contains(&c)) => 2,
        _ => 1,
    };
    text.chars().map(of).sum()
}

/// A control character, or one that turns the direction of writing or is not seen.
pub fn unseen(c: char) -> bool {
    c.is_control() || matches!(c, '\u{200b}'..='\u{200f}' | '\u{2028}'..='\u{202e}' | '\u{2060}'..='\u{206f}' | '\u{feff}')
}

/// A text with escapes for what is unseen.
pub fn seen(text: &str) -> String {
    text.chars().map(|c| if unseen(c) { c.escape_default().to_string() } else { c.to_string() }).collect()
}
