//! `crate::syntax` of cxx-build: the twelve given files, compiled from
//! docs/src as they are, over stand-ins for the modules that were not given.
#![allow(dead_code, mismatched_lifetime_syntaxes, unfulfilled_lint_expectations)]

#[path = "../../../docs/src/syntax/cfg.rs"]
pub(crate) mod cfg;
#[path = "../../../docs/src/syntax/check.rs"]
pub(crate) mod check;
#[path = "../../../docs/src/syntax/discriminant.rs"]
pub(crate) mod discriminant;
#[path = "../../../docs/src/syntax/improper.rs"]
pub(crate) mod improper;
#[path = "../../../docs/src/syntax/instantiate.rs"]
pub(crate) mod instantiate;
#[path = "../../../docs/src/syntax/pod.rs"]
mod pod;
#[path = "../../../docs/src/syntax/signature.rs"]
mod signature;
#[path = "../../../docs/src/syntax/toposort.rs"]
pub(crate) mod toposort;
#[path = "../../../docs/src/syntax/trivial.rs"]
pub(crate) mod trivial;
#[path = "../../../docs/src/syntax/types.rs"]
pub(crate) mod types;
#[path = "../../../docs/src/syntax/unpin.rs"]
pub(crate) mod unpin;
#[path = "../../../docs/src/syntax/visit.rs"]
pub(crate) mod visit;

// Stand-ins from here on.
mod api;
pub(crate) mod atom;
pub(crate) mod attrs;
mod derive;
pub(crate) mod error;
pub(crate) mod ident;
mod impls;
pub(crate) mod mangle;
pub(crate) mod map;
pub(crate) mod message;
mod nodes;
pub(crate) mod primitive;
pub(crate) mod query;
pub(crate) mod report;
pub(crate) mod resolve;
pub(crate) mod set;
mod tokens;

pub(crate) use self::api::{
    Api, Enum, EnumRepr, ExternFn, ExternType, Impl, Include, Lang, Pair, Struct, TypeAlias,
    Variant,
};
pub(crate) use self::atom::Atom;
pub(crate) use self::derive::{Derive, Trait};
pub(crate) use self::mangle::Symbol;
pub(crate) use self::nodes::{
    Array, FnKind, Lifetimes, NamedType, Ptr, Receiver, Ref, Signature, SliceRef, Ty1, Type, Var,
    Void,
};
pub(crate) use self::types::Types;
