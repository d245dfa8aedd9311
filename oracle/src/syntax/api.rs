//! Stand-in for the items of mod.rs. `span` is the item's own place.

use crate::syntax::attrs::OtherAttrs;
use crate::syntax::cfg::CfgExpr;
use crate::syntax::{Derive, Lifetimes, Signature, Type, Var};
use proc_macro2::{Ident, Span};
use std::ops::Deref;
use syn::{Token, token};

pub(crate) enum Api {
    Include(Include),
    Struct(Struct),
    Enum(Enum),
    CxxType(ExternType),
    CxxFunction(ExternFn),
    RustType(ExternType),
    RustFunction(ExternFn),
    TypeAlias(TypeAlias),
    Impl(Impl),
}

pub(crate) struct Include;

#[derive(Copy, Clone, PartialEq)]
pub(crate) enum Lang {
    Cxx,
    CxxUnwind,
    Rust,
}

/// Only the Rust name: a sheet has no namespaces and no C++ names.
pub(crate) struct Pair {
    pub rust: Ident,
}

pub(crate) struct Struct {
    pub span: Span,
    pub cfg: CfgExpr,
    pub derives: Vec<Derive>,
    pub attrs: OtherAttrs,
    pub struct_token: Token![struct],
    pub name: Pair,
    pub generics: Lifetimes,
    pub brace_token: token::Brace,
    pub fields: Vec<Var>,
}

pub(crate) struct Enum {
    pub span: Span,
    pub cfg: CfgExpr,
    pub derives: Vec<Derive>,
    pub attrs: OtherAttrs,
    pub enum_token: Token![enum],
    pub name: Pair,
    pub generics: Lifetimes,
    pub brace_token: token::Brace,
    pub variants: Vec<Variant>,
    pub repr: EnumRepr,
    pub explicit_repr: bool,
}

pub(crate) struct EnumRepr {
    pub repr_type: Type,
}

pub(crate) struct Variant {
    pub default: bool,
}

pub(crate) struct ExternType {
    pub span: Span,
    pub lang: Lang,
    pub derives: Vec<Derive>,
    pub attrs: OtherAttrs,
    pub name: Pair,
    pub generics: Lifetimes,
    pub bounds: Vec<Derive>,
    pub trusted: bool,
}

pub(crate) struct ExternFn {
    pub span: Span,
    pub cfg: CfgExpr,
    pub lang: Lang,
    pub name: Pair,
    pub sig: Signature,
    pub trusted: bool,
}

impl Deref for ExternFn {
    type Target = Signature;

    fn deref(&self) -> &Self::Target {
        &self.sig
    }
}

pub(crate) struct TypeAlias {
    pub span: Span,
    pub derives: Vec<Derive>,
    pub attrs: OtherAttrs,
    pub name: Pair,
    pub generics: Lifetimes,
}

pub(crate) struct Impl {
    pub span: Span,
    pub cfg: CfgExpr,
    pub impl_generics: Lifetimes,
    pub ty: Type,
    pub negative_token: Option<Token![!]>,
}
