//! Builds the syntax tree of an accepted sheet. Each use of a row gets a tree
//! of its own, as parsing would give; every node knows its place.

mod types;

use self::types::{NOWHERE, ident, named, ty, vars};
use crate::sheet::{Form, Function, Head, Item, Sheet};
use crate::syntax::attrs::OtherAttrs;
use crate::syntax::cfg::CfgExpr;
use crate::syntax::{
    Api, Derive, Enum, EnumRepr, ExternFn, ExternType, FnKind, Impl, Include, Lang, Lifetimes,
    Pair, Receiver, Signature, Struct, Trait, Type, TypeAlias, Var, Variant,
};
use proc_macro2::{LIFETIMES, Span};
use syn::{GenericParam, Generics, Lifetime, LifetimeParam, token};

pub(crate) fn build(sheet: &Sheet) -> Vec<Api> {
    let items = sheet.items.iter().enumerate();
    items.map(|(number, item)| api(sheet, number, item)).collect()
}

fn api(sheet: &Sheet, number: usize, item: &Item) -> Api {
    let span = Span::at(b'I', number, 0);
    match item {
        Item::Include => Api::Include(Include),
        Item::Struct { head, fields } => {
            let fields = vars(sheet, fields, b'F', number);
            Api::Struct(strct(head, fields, number, span))
        }
        Item::Enum { head, repr, explicit, variants, defaults } => {
            let repr_type = ty(sheet, *repr, NOWHERE);
            let variant = |index| Variant { default: index < *defaults };
            let variants = (0..*variants).map(variant).collect();
            Api::Enum(enm(head, repr_type, *explicit, variants, number, span))
        }
        Item::CxxType { head, flags } => {
            Api::CxxType(extern_type(head, *flags, Lang::Cxx, number, span))
        }
        Item::RustType { head, flags } => {
            Api::RustType(extern_type(head, *flags, Lang::Rust, number, span))
        }
        Item::CxxFunction(function) => {
            let unwind = function.flags & 4 != 0;
            let lang = if unwind { Lang::CxxUnwind } else { Lang::Cxx };
            Api::CxxFunction(extern_fn(sheet, function, lang, number, span))
        }
        Item::RustFunction(function) => {
            Api::RustFunction(extern_fn(sheet, function, Lang::Rust, number, span))
        }
        Item::TypeAlias { head } => Api::TypeAlias(alias(head, number, span)),
        Item::Impl { row, flags, lifetimes } => Api::Impl(Impl {
            span,
            cfg: CfgExpr::Unconditional,
            impl_generics: generics(lifetimes, number),
            ty: ty(sheet, *row, NOWHERE),
            negative_token: (*flags == 1).then_some(token::Bang(span)),
        }),
    }
}

fn alias(head: &Head, number: usize, span: Span) -> TypeAlias {
    TypeAlias {
        span,
        derives: derives(head, number),
        attrs: OtherAttrs,
        name: pair(head.name, span),
        generics: generics(&head.lifetimes, number),
    }
}

fn pair(name: u16, span: Span) -> Pair {
    Pair { rust: ident(name, span) }
}

fn brace(span: Span) -> token::Brace {
    token::Brace { span: token::DelimSpan(span) }
}

fn derives(head: &Head, number: usize) -> Vec<Derive> {
    let derive =
        |(index, &what): (usize, &u16)| Derive::numbered(what, Span::at(b'D', number, index));
    head.derives.iter().enumerate().map(derive).collect()
}

fn lifetimes(list: &[u16], number: usize) -> impl Iterator<Item = Lifetime> {
    list.iter().enumerate().map(move |(index, &lifetime)| {
        let apostrophe = Span::at(b'L', number, index);
        Lifetime { apostrophe, ident: ident(LIFETIMES + lifetime, apostrophe) }
    })
}

fn generics(list: &[u16], number: usize) -> Lifetimes {
    Lifetimes { lifetimes: lifetimes(list, number).collect() }
}

fn strct(head: &Head, fields: Vec<Var>, number: usize, span: Span) -> Struct {
    Struct {
        span,
        cfg: CfgExpr::Unconditional,
        derives: derives(head, number),
        attrs: OtherAttrs,
        struct_token: token::Struct(span),
        name: pair(head.name, span),
        generics: generics(&head.lifetimes, number),
        brace_token: brace(span),
        fields,
    }
}

fn enm(
    head: &Head,
    repr_type: Type,
    explicit_repr: bool,
    variants: Vec<Variant>,
    number: usize,
    span: Span,
) -> Enum {
    Enum {
        span,
        cfg: CfgExpr::Unconditional,
        derives: derives(head, number),
        attrs: OtherAttrs,
        enum_token: token::Enum(span),
        name: pair(head.name, span),
        generics: generics(&head.lifetimes, number),
        brace_token: brace(span),
        variants,
        repr: EnumRepr { repr_type },
        explicit_repr,
    }
}

fn extern_type(head: &Head, flags: u16, lang: Lang, number: usize, span: Span) -> ExternType {
    // One bound stands for "has bounds"; which trait it is never shows.
    let bound = (flags & 2 != 0).then_some(Derive { what: Trait::Clone, span });
    ExternType {
        span,
        lang,
        derives: derives(head, number),
        attrs: OtherAttrs,
        name: pair(head.name, span),
        generics: generics(&head.lifetimes, number),
        bounds: bound.into_iter().collect(),
        trusted: flags & 1 != 0,
    }
}

fn extern_fn(
    sheet: &Sheet,
    function: &Function,
    lang: Lang,
    number: usize,
    span: Span,
) -> ExternFn {
    let param = |lifetime| GenericParam::Lifetime(LifetimeParam { lifetime });
    let params = lifetimes(&function.lifetimes, number).map(param).collect();
    let ret_span = Span::at(b'O', number, 0);
    let sig = Signature {
        span,
        user: NOWHERE,
        unsafety: (function.flags & 1 != 0).then_some(token::Unsafe(span)),
        fn_token: token::Fn(span),
        generics: Generics { params },
        kind: fn_kind(&function.form, span),
        args: vars(sheet, &function.args, b'A', number),
        ret: function.ret.map(|row| ty(sheet, row, ret_span)),
        throws: false,
    };
    ExternFn {
        span,
        cfg: CfgExpr::Unconditional,
        lang,
        name: pair(function.name, span),
        sig,
        trusted: function.flags & 2 != 0,
    }
}

fn fn_kind(form: &Form, span: Span) -> FnKind {
    match *form {
        Form::Free => FnKind::Free,
        Form::Associated(name) => FnKind::Assoc(ident(name, span)),
        Form::Method { name, flags } => FnKind::Method(Receiver {
            pinned: flags & 2 != 0,
            ampersand: token::And(span),
            lifetime: None,
            mutable: flags & 1 != 0,
            var: token::SelfValue(span),
            ty: named(name, span, NOWHERE),
            shorthand: false,
            mutability: (flags & 1 != 0).then_some(token::Mut(span)),
        }),
    }
}
