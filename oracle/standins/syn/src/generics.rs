//! Lifetimes, alone and as parameters of a function.

use proc_macro2::{Ident, Span, TokenStream};
use quote::ToTokens;
use std::hash::{Hash, Hasher};

#[derive(Copy, Clone)]
pub struct Lifetime {
    pub apostrophe: Span,
    pub ident: Ident,
}

impl Eq for Lifetime {}

impl PartialEq for Lifetime {
    fn eq(&self, other: &Self) -> bool {
        self.ident == other.ident
    }
}

impl Hash for Lifetime {
    fn hash<H: Hasher>(&self, hasher: &mut H) {
        self.ident.hash(hasher);
    }
}

impl ToTokens for Lifetime {
    fn to_tokens(&self, tokens: &mut TokenStream) {
        tokens.push(self.apostrophe);
    }
}

pub struct LifetimeParam {
    pub lifetime: Lifetime,
}

pub enum GenericParam {
    Lifetime(LifetimeParam),
    Type,
}

#[derive(Default)]
pub struct Generics {
    pub params: Vec<GenericParam>,
}

impl Generics {
    pub fn lifetimes(&self) -> impl Iterator<Item = &LifetimeParam> {
        self.params.iter().filter_map(|param| match param {
            GenericParam::Lifetime(param) => Some(param),
            GenericParam::Type => None,
        })
    }
}

impl ToTokens for Generics {
    fn to_tokens(&self, tokens: &mut TokenStream) {
        for param in self.lifetimes() {
            param.lifetime.to_tokens(tokens);
        }
    }
}
