//! Stand-in for proc_macro2: spans that are places of a sheet, identifiers
//! that are numbers, token streams that keep their first span only.

mod ident;

pub use ident::{Ident, LIFETIMES};

/// A place of the sheet: its letter (0 for no place) and its two numbers.
#[derive(Copy, Clone, Debug, PartialEq, Eq)]
pub struct Span {
    pub letter: u8,
    pub first: u16,
    pub second: u16,
}

impl Span {
    pub const fn at(letter: u8, first: usize, second: usize) -> Self {
        Span { letter, first: first as u16, second: second as u16 }
    }

    pub const fn call_site() -> Self {
        Span::at(0, 0, 0)
    }
}

/// An error spans its tokens from the first one on, so the first is kept.
#[derive(Copy, Clone, Default)]
pub struct TokenStream {
    pub first: Option<Span>,
}

impl TokenStream {
    pub fn new() -> Self {
        TokenStream::default()
    }

    pub fn push(&mut self, span: Span) {
        if self.first.is_none() {
            self.first = Some(span);
        }
    }
}

pub enum Delimiter {
    Brace,
}

pub struct Group {
    pub span: Span,
}

impl Group {
    pub fn new(_delimiter: Delimiter, _stream: TokenStream) -> Self {
        Group { span: Span::call_site() }
    }

    pub fn set_span(&mut self, span: Span) {
        self.span = span;
    }
}

pub struct Literal;

impl Literal {
    pub fn u64_unsuffixed(_value: u64) -> Self {
        Literal
    }
}
