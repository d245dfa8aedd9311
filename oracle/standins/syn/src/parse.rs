//! The parser's names that cfg.rs uses. A sheet has no text to parse, so
//! none of this is ever called; a call would stop the program.

pub use crate::{Error, Result};
use std::marker::PhantomData;

pub struct Attribute;

pub struct ParseBuffer<'a>(PhantomData<&'a ()>);

pub type ParseStream<'a> = &'a ParseBuffer<'a>;

pub struct Lookahead1;

fn never() -> ! {
    unreachable!("nothing is parsed here")
}

impl Attribute {
    pub fn parse_args_with<T>(&self, _parser: impl FnOnce(ParseStream) -> Result<T>) -> Result<T> {
        never()
    }
}

impl ParseBuffer<'_> {
    pub fn call<T>(&self, _parser: impl FnOnce(ParseStream) -> Result<T>) -> Result<T> {
        never()
    }

    pub fn parse<T>(&self) -> Result<T> {
        never()
    }

    pub fn lookahead1(&self) -> Lookahead1 {
        never()
    }

    pub fn peek<T>(&self, _token: T) -> bool {
        never()
    }

    pub fn is_empty(&self) -> bool {
        never()
    }

    pub fn parenthesized(&self) -> Result<ParseBuffer<'static>> {
        never()
    }
}

impl Lookahead1 {
    pub fn peek<T>(&self, _token: T) -> bool {
        never()
    }

    pub fn error(self) -> Error {
        never()
    }
}

#[macro_export]
macro_rules! parenthesized {
    ($content:ident in $input:expr) => {
        $content = $input.parenthesized()?
    };
}
