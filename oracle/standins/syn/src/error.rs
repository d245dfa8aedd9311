//! An error: the place of its subject, and its text.

use proc_macro2::Span;
use quote::ToTokens;
use std::fmt::Display;

#[derive(Debug)]
pub struct Error {
    pub span: Span,
    pub text: String,
}

pub type Result<T> = std::result::Result<T, Error>;

impl Error {
    pub fn new(span: Span, message: impl Display) -> Self {
        Error { span, text: message.to_string() }
    }

    pub fn new_spanned(subject: impl ToTokens, message: impl Display) -> Self {
        Error::new(subject.into_span(), message)
    }
}

impl Display for Error {
    fn fmt(&self, f: &mut std::fmt::Formatter) -> std::fmt::Result {
        f.write_str(&self.text)
    }
}
