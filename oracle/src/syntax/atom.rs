//! Stand-in for atom.rs: names 0 to 15 are the atoms.

use proc_macro2::{Ident, Span};
use std::fmt::{self, Display};

#[derive(Copy, Clone, PartialEq, Eq, Debug)]
pub(crate) enum Atom {
    Bool,
    Char,
    U8,
    U16,
    U32,
    U64,
    Usize,
    I8,
    I16,
    I32,
    I64,
    Isize,
    F32,
    F64,
    CxxString,
    RustString,
}

use Atom::*;

const ATOMS: [Atom; 16] = [
    Bool, Char, U8, U16, U32, U64, Usize, I8, I16, I32, I64, Isize, F32, F64, CxxString, RustString,
];

impl Atom {
    pub(crate) fn from(ident: &Ident) -> Option<Self> {
        ATOMS.get(ident.number as usize).copied()
    }

    pub(crate) fn from_str(text: &str) -> Option<Self> {
        ATOMS.into_iter().find(|atom| atom.ident() == *text)
    }

    fn ident(self) -> Ident {
        Ident::numbered(self as u16, Span::call_site())
    }
}

impl Display for Atom {
    fn fmt(&self, f: &mut fmt::Formatter) -> fmt::Result {
        self.ident().fmt(f)
    }
}

impl PartialEq<Atom> for Ident {
    fn eq(&self, atom: &Atom) -> bool {
        self.number == *atom as u16
    }
}

impl PartialEq<Atom> for &Ident {
    fn eq(&self, atom: &Atom) -> bool {
        **self == *atom
    }
}
