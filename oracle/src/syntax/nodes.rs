//! Stand-in for the types of mod.rs. `span` is the row (or argument, or
//! field) that a node stands for; `user` is the place of the item's return
//! whose type it is, if it is one.

use crate::syntax::cfg::CfgExpr;
use proc_macro2::{Ident, Span};
use syn::{Generics, Lifetime, Token};

pub(crate) enum Type {
    Ident(NamedType),
    RustBox(Box<Ty1>),
    RustVec(Box<Ty1>),
    UniquePtr(Box<Ty1>),
    SharedPtr(Box<Ty1>),
    WeakPtr(Box<Ty1>),
    Ref(Box<Ref>),
    Ptr(Box<Ptr>),
    Str(Box<Ref>),
    CxxVector(Box<Ty1>),
    Fn(Box<Signature>),
    Void(Void),
    SliceRef(Box<SliceRef>),
    Array(Box<Array>),
}

pub(crate) struct NamedType {
    pub rust: Ident,
    pub generics: Lifetimes,
    pub user: Span,
}

pub(crate) struct Ty1 {
    pub span: Span,
    pub user: Span,
    pub name: Ident,
    pub inner: Type,
    pub rangle: Token![>],
}

pub(crate) struct Ref {
    pub span: Span,
    pub user: Span,
    pub pinned: bool,
    pub lifetime: Option<Lifetime>,
    pub mutable: bool,
    pub inner: Type,
}

pub(crate) struct Ptr {
    pub span: Span,
    pub user: Span,
    pub mutable: bool,
    pub inner: Type,
}

pub(crate) struct SliceRef {
    pub span: Span,
    pub user: Span,
    pub lifetime: Option<Lifetime>,
    pub mutable: bool,
    pub inner: Type,
}

pub(crate) struct Array {
    pub span: Span,
    pub user: Span,
    pub inner: Type,
    pub len: usize,
}

pub(crate) struct Void {
    pub span: Span,
    pub user: Span,
}

/// Of a function pointer or a function item.
pub(crate) struct Signature {
    pub span: Span,
    pub user: Span,
    pub unsafety: Option<Token![unsafe]>,
    pub fn_token: Token![fn],
    pub generics: Generics,
    pub kind: FnKind,
    pub args: Vec<Var>,
    pub ret: Option<Type>,
    pub throws: bool,
}

pub(crate) enum FnKind {
    Method(Receiver),
    Assoc(Ident),
    Free,
}

pub(crate) struct Receiver {
    pub pinned: bool,
    pub ampersand: Token![&],
    pub lifetime: Option<Lifetime>,
    pub mutable: bool,
    pub var: Token![self],
    pub ty: NamedType,
    pub shorthand: bool,
    pub mutability: Option<Token![mut]>,
}

/// A field or an argument.
pub(crate) struct Var {
    pub span: Span,
    pub cfg: CfgExpr,
    pub ty: Type,
}

#[derive(Default)]
pub(crate) struct Lifetimes {
    pub lifetimes: Vec<Lifetime>,
}
