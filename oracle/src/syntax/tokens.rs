//! Stand-in for tokens.rs: a subject's tokens are its place.

use crate::syntax::{
    Array, Derive, Enum, ExternFn, ExternType, Impl, NamedType, Ptr, Ref, Signature, SliceRef,
    Struct, Ty1, Type, TypeAlias, Var,
};
use proc_macro2::TokenStream;
use quote::ToTokens;

macro_rules! at_their_span {
    ($($node:ident)*) => {
        $(
            impl ToTokens for $node {
                fn to_tokens(&self, tokens: &mut TokenStream) {
                    tokens.push(self.span);
                }
            }
        )*
    };
}

at_their_span! {
    Array Derive Enum ExternFn ExternType Impl Ptr Ref Signature SliceRef Struct Ty1 TypeAlias Var
}

impl ToTokens for NamedType {
    fn to_tokens(&self, tokens: &mut TokenStream) {
        self.rust.to_tokens(tokens);
    }
}

/// The source passes a whole `Type` to an error call only for a return.
impl ToTokens for Type {
    fn to_tokens(&self, tokens: &mut TokenStream) {
        tokens.push(match self {
            Type::Ident(ty) => ty.user,
            Type::RustBox(ty)
            | Type::RustVec(ty)
            | Type::UniquePtr(ty)
            | Type::SharedPtr(ty)
            | Type::WeakPtr(ty)
            | Type::CxxVector(ty) => ty.user,
            Type::Ref(ty) | Type::Str(ty) => ty.user,
            Type::Ptr(ty) => ty.user,
            Type::Fn(ty) => ty.user,
            Type::Void(ty) => ty.user,
            Type::SliceRef(ty) => ty.user,
            Type::Array(ty) => ty.user,
        });
    }
}
