//! Stand-in for impls.rs: types are equal, and hash, by content without
//! spans.

use crate::syntax::{Array, Lifetimes, NamedType, Ptr, Ref, Signature, SliceRef, Ty1, Type, Var};
use std::hash::{Hash, Hasher};
use std::mem;

impl Eq for Type {}

impl PartialEq for Type {
    fn eq(&self, other: &Self) -> bool {
        match (self, other) {
            (Type::Ident(a), Type::Ident(b)) => a == b,
            (Type::RustBox(a), Type::RustBox(b))
            | (Type::RustVec(a), Type::RustVec(b))
            | (Type::UniquePtr(a), Type::UniquePtr(b))
            | (Type::SharedPtr(a), Type::SharedPtr(b))
            | (Type::WeakPtr(a), Type::WeakPtr(b))
            | (Type::CxxVector(a), Type::CxxVector(b)) => a == b,
            (Type::Ref(a), Type::Ref(b)) | (Type::Str(a), Type::Str(b)) => a == b,
            (Type::Ptr(a), Type::Ptr(b)) => a == b,
            (Type::Fn(a), Type::Fn(b)) => a == b,
            (Type::SliceRef(a), Type::SliceRef(b)) => a == b,
            (Type::Array(a), Type::Array(b)) => a == b,
            (Type::Void(_), Type::Void(_)) => true,
            (_, _) => false,
        }
    }
}

impl Hash for Type {
    fn hash<H: Hasher>(&self, hasher: &mut H) {
        mem::discriminant(self).hash(hasher);
        match self {
            Type::Ident(ty) => ty.hash(hasher),
            Type::RustBox(ty)
            | Type::RustVec(ty)
            | Type::UniquePtr(ty)
            | Type::SharedPtr(ty)
            | Type::WeakPtr(ty)
            | Type::CxxVector(ty) => ty.inner.hash(hasher),
            Type::Ref(ty) | Type::Str(ty) => ty.hash(hasher),
            Type::Ptr(ty) => ty.hash(hasher),
            Type::Fn(ty) => ty.hash(hasher),
            Type::SliceRef(ty) => ty.hash(hasher),
            Type::Array(ty) => ty.hash(hasher),
            Type::Void(_) => {}
        }
    }
}

/// Equality and hash from the named parts.
macro_rules! by_parts {
    ($($node:ident: $($part:ident)*;)*) => {
        $(
            impl Eq for $node {}

            impl PartialEq for $node {
                fn eq(&self, other: &Self) -> bool {
                    true $(&& self.$part == other.$part)*
                }
            }

            impl Hash for $node {
                fn hash<H: Hasher>(&self, hasher: &mut H) {
                    $(self.$part.hash(hasher);)*
                }
            }
        )*
    };
}

by_parts! {
    NamedType: rust generics;
    Lifetimes: lifetimes;
    Ty1: inner;
    Ref: pinned lifetime mutable inner;
    Ptr: mutable inner;
    SliceRef: lifetime mutable inner;
    Array: inner len;
    Var: ty;
}

impl Eq for Signature {}

/// Only function pointers are compared, so the kind is always Free.
impl PartialEq for Signature {
    fn eq(&self, other: &Self) -> bool {
        self.unsafety.is_some() == other.unsafety.is_some()
            && self.throws == other.throws
            && self.ret == other.ret
            && self.args == other.args
    }
}

impl Hash for Signature {
    fn hash<H: Hasher>(&self, hasher: &mut H) {
        self.unsafety.is_some().hash(hasher);
        self.throws.hash(hasher);
        self.ret.hash(hasher);
        self.args.hash(hasher);
    }
}
