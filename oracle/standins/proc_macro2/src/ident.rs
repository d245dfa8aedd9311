//! Identifiers: a number of the sheet instead of a text.

use crate::Span;
use std::cmp::Ordering;
use std::fmt::{self, Debug, Display};
use std::hash::{Hash, Hasher};

/// Names have numbers 0 to 255, lifetimes 256 and up (256 is `static`).
pub const LIFETIMES: u16 = 256;

const KNOWN: [&str; 24] = [
    "bool",
    "c_char",
    "u8",
    "u16",
    "u32",
    "u64",
    "usize",
    "i8",
    "i16",
    "i32",
    "i64",
    "isize",
    "f32",
    "f64",
    "CxxString",
    "String",
    "Box",
    "UniquePtr",
    "SharedPtr",
    "WeakPtr",
    "Vec",
    "CxxVector",
    "str",
    "Self",
];

/// Equality, order and hash are by number: by content, without the span.
#[derive(Copy, Clone)]
pub struct Ident {
    pub number: u16,
    pub span: Span,
}

impl Ident {
    pub fn numbered(number: u16, span: Span) -> Self {
        Ident { number, span }
    }

    pub fn span(&self) -> Span {
        self.span
    }

    fn known(&self) -> Option<&'static str> {
        match self.number {
            LIFETIMES => Some("static"),
            number => KNOWN.get(number as usize).copied(),
        }
    }
}

impl Eq for Ident {}

impl PartialEq for Ident {
    fn eq(&self, other: &Self) -> bool {
        self.number == other.number
    }
}

impl Ord for Ident {
    fn cmp(&self, other: &Self) -> Ordering {
        self.number.cmp(&other.number)
    }
}

impl PartialOrd for Ident {
    fn partial_cmp(&self, other: &Self) -> Option<Ordering> {
        Some(self.cmp(other))
    }
}

impl Hash for Ident {
    fn hash<H: Hasher>(&self, hasher: &mut H) {
        self.number.hash(hasher);
    }
}

/// Free names have the text `n24`, which is no text that the sources ask for.
impl PartialEq<str> for Ident {
    fn eq(&self, other: &str) -> bool {
        match self.known() {
            Some(text) => text == other,
            None => {
                let number = other.strip_prefix('n').and_then(|digits| digits.parse().ok());
                number == Some(self.number)
            }
        }
    }
}

impl PartialEq<&str> for Ident {
    fn eq(&self, other: &&str) -> bool {
        *self == **other
    }
}

impl Display for Ident {
    fn fmt(&self, f: &mut fmt::Formatter) -> fmt::Result {
        match self.known() {
            Some(text) => f.write_str(text),
            None => write!(f, "n{}", self.number),
        }
    }
}

impl Debug for Ident {
    fn fmt(&self, f: &mut fmt::Formatter) -> fmt::Result {
        Display::fmt(self, f)
    }
}
