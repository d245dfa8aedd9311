//! Stand-in for mangle.rs: a symbol for a resolved name, or vectors of it.
//! It reaches only `impls` and `local`, which are left out.

use crate::syntax::Type;
use crate::syntax::map::UnorderedMap;
use crate::syntax::resolve::Resolution;
use proc_macro2::Ident;

#[derive(Copy, Clone, PartialEq, Eq, Hash)]
pub(crate) struct Symbol {
    vectors: u16,
    name: u16,
}

pub(crate) fn typename(ty: &Type, res: &UnorderedMap<&Ident, Resolution>) -> Option<Symbol> {
    match ty {
        Type::Ident(ty) => {
            res.get(&ty.rust).map(|found| Symbol { vectors: 0, name: found.name.rust.number })
        }
        Type::CxxVector(ty) => {
            typename(&ty.inner, res).map(|symbol| Symbol { vectors: symbol.vectors + 1, ..symbol })
        }
        _ => None,
    }
}
