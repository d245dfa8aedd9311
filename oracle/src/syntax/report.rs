//! Stand-in for report.rs: every error is kept, in order.

use quote::ToTokens;
use std::fmt::Display;
use syn::Error;

#[derive(Default)]
pub(crate) struct Errors {
    pub errors: Vec<Error>,
    #[cfg(feature = "lines")]
    pub lines: Vec<crate::lines::Line>,
}

impl Errors {
    pub(crate) fn new() -> Self {
        Errors::default()
    }

    pub(crate) fn error(&mut self, sp: impl ToTokens, msg: impl Display) {
        self.errors.push(Error::new_spanned(sp, msg));
        #[cfg(feature = "lines")]
        self.lines.push(crate::lines::caller());
    }
}
