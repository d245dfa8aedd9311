//! Stand-in for resolve.rs: a name resolves to what `collect` entered last
//! for it. Message 56 rests on this.

use crate::syntax::attrs::OtherAttrs;
use crate::syntax::{Lifetimes, NamedType, Pair, Types};
use proc_macro2::Ident;

#[derive(Copy, Clone)]
pub(crate) struct Resolution<'a> {
    pub name: &'a Pair,
    pub attrs: &'a OtherAttrs,
    pub generics: &'a Lifetimes,
}

pub(crate) trait UnresolvedName {
    fn ident(&self) -> &Ident;
}

impl UnresolvedName for Ident {
    fn ident(&self) -> &Ident {
        self
    }
}

impl UnresolvedName for NamedType {
    fn ident(&self) -> &Ident {
        &self.rust
    }
}

impl<'a> Types<'a> {
    pub(crate) fn resolve(&self, name: &impl UnresolvedName) -> Resolution<'a> {
        self.try_resolve(name).expect("unresolved name")
    }

    pub(crate) fn try_resolve(&self, name: &impl UnresolvedName) -> Option<Resolution<'a>> {
        self.resolutions.get(name.ident()).copied()
    }
}
