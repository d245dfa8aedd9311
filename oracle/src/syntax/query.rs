//! Stand-in for query.rs: the same cases as `Type`, by reference.

use crate::syntax::{Array, NamedType, Ptr, Ref, Type};

#[derive(Copy, Clone)]
pub(crate) enum TypeQuery<'a> {
    Ident(&'a NamedType),
    RustBox,
    RustVec,
    UniquePtr,
    SharedPtr,
    WeakPtr,
    Ref(&'a Ref),
    Ptr(&'a Ptr),
    Str,
    CxxVector,
    Fn,
    Void,
    SliceRef,
    Array(&'a Array),
}

impl<'a> From<&'a Type> for TypeQuery<'a> {
    fn from(ty: &'a Type) -> Self {
        match ty {
            Type::Ident(ty) => TypeQuery::Ident(ty),
            Type::RustBox(_) => TypeQuery::RustBox,
            Type::RustVec(_) => TypeQuery::RustVec,
            Type::UniquePtr(_) => TypeQuery::UniquePtr,
            Type::SharedPtr(_) => TypeQuery::SharedPtr,
            Type::WeakPtr(_) => TypeQuery::WeakPtr,
            Type::Ref(ty) => TypeQuery::Ref(ty),
            Type::Ptr(ty) => TypeQuery::Ptr(ty),
            Type::Str(_) => TypeQuery::Str,
            Type::CxxVector(_) => TypeQuery::CxxVector,
            Type::Fn(_) => TypeQuery::Fn,
            Type::Void(_) => TypeQuery::Void,
            Type::SliceRef(_) => TypeQuery::SliceRef,
            Type::Array(ty) => TypeQuery::Array(ty),
        }
    }
}
