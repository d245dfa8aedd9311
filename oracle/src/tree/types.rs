//! The tree of a row.

use crate::sheet::{Row, Sheet};
use crate::syntax::cfg::CfgExpr;
use crate::syntax::{
    Array, FnKind, Lifetimes, NamedType, Ptr, Ref, Signature, SliceRef, Ty1, Type, Var, Void,
};
use proc_macro2::{Ident, Span};
use syn::{Generics, token};

pub(super) const NOWHERE: Span = Span::call_site();

pub(super) fn ident(name: u16, span: Span) -> Ident {
    Ident::numbered(name, span)
}

pub(super) fn named(name: u16, span: Span, user: Span) -> NamedType {
    let (rust, generics) = (ident(name, span), Lifetimes::default());
    NamedType { rust, generics, user }
}

/// The tree of a row; `user` is for the whole type only, not its parts.
pub(super) fn ty(sheet: &Sheet, number: u16, user: Span) -> Type {
    let span = Span::at(b'R', number as usize, 0);
    let part = |row: u16| ty(sheet, row, NOWHERE);
    let reference = |pinned, mutable, inner| {
        let lifetime = None;
        Box::new(Ref { span, user, pinned, lifetime, mutable, inner })
    };
    match &sheet.rows[number as usize] {
        Row::Ident(name) => Type::Ident(named(*name, span, user)),
        Row::Ty1 { kind, inner } => ty1(*kind, part(*inner), span, user),
        Row::Ref { flags, inner } => {
            Type::Ref(reference(flags & 2 != 0, flags & 1 != 0, part(*inner)))
        }
        Row::Ptr { flags, inner } => {
            let (mutable, inner) = (*flags == 1, part(*inner));
            Type::Ptr(Box::new(Ptr { span, user, mutable, inner }))
        }
        Row::Str => Type::Str(reference(false, false, Type::Ident(named(22, span, NOWHERE)))),
        Row::SliceRef { flags, inner } => {
            let (mutable, inner, lifetime) = (*flags == 1, part(*inner), None);
            Type::SliceRef(Box::new(SliceRef { span, user, lifetime, mutable, inner }))
        }
        Row::Array { length, inner } => {
            let (len, inner) = (*length as usize, part(*inner));
            Type::Array(Box::new(Array { span, user, inner, len }))
        }
        Row::Fn { flags, ret, args } => {
            let args = vars(sheet, args, b'G', number as usize);
            Type::Fn(Box::new(signature(*flags, args, ret.map(part), span, user)))
        }
        Row::Void => Type::Void(Void { span, user }),
    }
}

/// Of a function pointer.
fn signature(flags: u16, args: Vec<Var>, ret: Option<Type>, span: Span, user: Span) -> Signature {
    Signature {
        span,
        user,
        unsafety: (flags & 1 != 0).then_some(token::Unsafe(span)),
        fn_token: token::Fn(span),
        generics: Generics::default(),
        kind: FnKind::Free,
        args,
        ret,
        throws: flags & 2 != 0,
    }
}

fn ty1(kind: u16, inner: Type, span: Span, user: Span) -> Type {
    // The names of Box, Vec, UniquePtr, SharedPtr, WeakPtr, CxxVector.
    let name = ident([16, 20, 17, 18, 19, 21][kind as usize - 1], span);
    let rangle = token::Gt { span };
    let node = Box::new(Ty1 { span, user, name, inner, rangle });
    match kind {
        1 => Type::RustBox(node),
        2 => Type::RustVec(node),
        3 => Type::UniquePtr(node),
        4 => Type::SharedPtr(node),
        5 => Type::WeakPtr(node),
        _ => Type::CxxVector(node),
    }
}

/// Fields or arguments: their own places, then trees.
pub(super) fn vars(sheet: &Sheet, rows: &[u16], letter: u8, first: usize) -> Vec<Var> {
    let var = |(index, &row): (usize, &u16)| Var {
        span: Span::at(letter, first, index),
        cfg: CfgExpr::Unconditional,
        ty: ty(sheet, row, NOWHERE),
    };
    rows.iter().enumerate().map(var).collect()
}
