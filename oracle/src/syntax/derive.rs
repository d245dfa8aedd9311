//! Stand-in for derive.rs: derives 0 to 14, as docs/SHEET.md has them.

use proc_macro2::Span;
use std::fmt::{self, Display};

#[derive(Copy, Clone, PartialEq, Debug)]
pub(crate) enum Trait {
    Clone,
    Copy,
    Debug,
    Default,
    Eq,
    Hash,
    Ord,
    PartialEq,
    PartialOrd,
    Serialize,
    Deserialize,
    BitAnd,
    BitOr,
    BitXor,
    ExternType,
}

pub(crate) const TRAITS: [Trait; 15] = [
    Trait::Clone,
    Trait::Copy,
    Trait::Debug,
    Trait::Default,
    Trait::Eq,
    Trait::Hash,
    Trait::Ord,
    Trait::PartialEq,
    Trait::PartialOrd,
    Trait::Serialize,
    Trait::Deserialize,
    Trait::BitAnd,
    Trait::BitOr,
    Trait::BitXor,
    Trait::ExternType,
];

#[derive(Copy, Clone)]
pub(crate) struct Derive {
    pub what: Trait,
    pub span: Span,
}

impl Derive {
    pub(crate) fn numbered(number: u16, span: Span) -> Self {
        let what = TRAITS[number as usize];
        Derive { what, span }
    }
}

impl Display for Derive {
    fn fmt(&self, f: &mut fmt::Formatter) -> fmt::Result {
        write!(f, "{:?}", self.what)
    }
}
