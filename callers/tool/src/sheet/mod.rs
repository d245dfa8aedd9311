//! What stands in a sheet, by docs/SHEET.md: the parts of each kind of body, in their order. `reader` reads by these tables.

pub mod reader;

pub const MOST_BYTES: usize = 32_768;
pub const MOST_ROWS: u16 = 1_024;
pub const MOST_ITEMS: u16 = 255;
pub const MOST_LIFETIMES: u16 = 8;
pub const LAST_LIFETIME: u16 = 255;
pub const MOST_DERIVES: u16 = 16;
pub const MOST_VARIANTS: u16 = 255;
pub const NAMES: usize = 256;
pub const LAST_NAME: u16 = 255;
/// In the place of a return row: none.
pub const NONE: u16 = 65_535;

/// A part of a body: a pair, or a list.
#[derive(Clone, Copy, Debug, PartialEq, Eq)]
pub enum Part {
    Name,
    /// What 1, 2, 4 .. mean.
    Flags(&'static [&'static str]),
    /// One row, and what it is called.
    Row(&'static str),
    Return,
    /// A list of rows: what one is called, and how many there may be.
    Rows(&'static str, u16),
    Lifetimes,
    Derives,
    ArrayLength,
    Form,
    /// A row of kind 0.
    Repr,
    Explicit,
    Variants,
    Defaults,
}

const ARGUMENTS: Part = Part::Rows("argument", 16);
const MUTABLE: Part = Part::Flags(&["mutable"]);
const TYPE: Part = Part::Flags(&["trusted", "has bounds"]);
/// Flags of a Ref, and of a method's receiver.
pub const REFERENCE: &[&str] = &["mutable", "pinned"];

/// The kinds of a body: each one's name, and its parts.
pub type Kinds = [(&'static str, &'static [Part])];

pub const ROWS: &Kinds = &[
    ("Ident", &[Part::Name]),
    ("RustBox", &[Part::Row("inner row")]),
    ("RustVec", &[Part::Row("inner row")]),
    ("UniquePtr", &[Part::Row("inner row")]),
    ("SharedPtr", &[Part::Row("inner row")]),
    ("WeakPtr", &[Part::Row("inner row")]),
    ("CxxVector", &[Part::Row("inner row")]),
    ("Ref", &[Part::Flags(REFERENCE), Part::Row("inner row")]),
    ("Ptr", &[MUTABLE, Part::Row("inner row")]),
    ("Str", &[]),
    ("SliceRef", &[MUTABLE, Part::Row("inner row")]),
    ("Array", &[Part::ArrayLength, Part::Row("inner row")]),
    ("Fn", &[Part::Flags(&["unsafe", "throws"]), Part::Return, ARGUMENTS]),
    ("Void", &[]),
];

pub const ITEMS: &Kinds = &[
    ("Include", &[]),
    ("Struct", &[Part::Name, Part::Lifetimes, Part::Derives, Part::Rows("field", 64)]),
    ("Enum", &[Part::Name, Part::Lifetimes, Part::Derives, Part::Repr, Part::Explicit, Part::Variants, Part::Defaults]),
    ("CxxType", &[Part::Name, Part::Lifetimes, Part::Derives, TYPE]),
    ("RustType", &[Part::Name, Part::Lifetimes, Part::Derives, TYPE]),
    ("CxxFunction", &[Part::Name, Part::Flags(&["unsafe", "trusted", "CxxUnwind"]), Part::Lifetimes, Part::Form, Part::Return, ARGUMENTS]),
    ("RustFunction", &[Part::Name, Part::Flags(&["unsafe", "trusted"]), Part::Lifetimes, Part::Form, Part::Return, ARGUMENTS]),
    ("TypeAlias", &[Part::Name, Part::Lifetimes, Part::Derives]),
    ("Impl", &[Part::Row("row"), Part::Flags(&["negative"]), Part::Lifetimes]),
];

/// Kinds that are asked for by name.
pub mod row {
    pub const IDENT: u16 = 0;
    pub const BOX: u16 = 1;
    pub const VEC: u16 = 2;
    pub const REF: u16 = 7;
    pub const PTR: u16 = 8;
    pub const STR: u16 = 9;
    pub const SLICE: u16 = 10;
    pub const ARRAY: u16 = 11;
    pub const FN: u16 = 12;
}
pub mod item {
    pub const INCLUDE: u16 = 0;
    pub const STRUCT: u16 = 1;
    pub const ENUM: u16 = 2;
    pub const CXX_TYPE: u16 = 3;
    pub const RUST_TYPE: u16 = 4;
    pub const CXX_FUNCTION: u16 = 5;
    pub const RUST_FUNCTION: u16 = 6;
    pub const ALIAS: u16 = 7;
    pub const IMPL: u16 = 8;
}

pub const DERIVED: [&str; 15] = [
    "Clone",
    "Copy",
    "Debug",
    "Default",
    "Eq",
    "Hash",
    "Ord",
    "PartialEq",
    "PartialOrd",
    "Serialize",
    "Deserialize",
    "BitAnd",
    "BitOr",
    "BitXor",
    "ExternType",
];

/// Pairs as they stand in a sheet.
#[derive(Clone, Copy, Debug, Default)]
pub struct Pairs<'a>(pub &'a [u8]);

impl<'a> Pairs<'a> {
    pub fn len(self) -> usize {
        self.0.len() / 2
    }

    pub fn is_empty(self) -> bool {
        self.len() == 0
    }

    pub fn iter(self) -> impl ExactSizeIterator<Item = u16> + 'a {
        self.0.chunks_exact(2).map(|pair| u16::from_le_bytes([pair[0], pair[1]]))
    }

    pub fn get(self, index: usize) -> Option<u16> {
        let pair = self.0.get(2 * index..2 * index + 2)?;
        Some(u16::from_le_bytes([pair[0], pair[1]]))
    }
}

#[derive(Clone, Copy, Debug, Default)]
pub enum Form {
    #[default]
    Free,
    Associated(u16),
    Method {
        name: u16,
        flags: u16,
    },
}

impl Form {
    pub fn self_type(self) -> Option<u16> {
        match self {
            Form::Free => None,
            Form::Associated(name) | Form::Method { name, .. } => Some(name),
        }
    }
}

/// A row or an item; what its kind does not have is 0 or empty.
#[derive(Clone, Copy, Debug, Default)]
pub struct Body<'a> {
    pub kind: u16,
    pub pairs: Pairs<'a>,
    pub name: u16,
    pub flags: u16,
    /// Inner row, repr row, fields or arguments.
    pub rows: Pairs<'a>,
    pub ret: Option<u16>,
    pub array_length: u16,
    pub lifetimes: Pairs<'a>,
    pub derives: Pairs<'a>,
    pub form: Form,
    pub explicit: bool,
    pub variants: u16,
    pub defaults: u16,
}

impl Body<'_> {
    pub fn has(&self, flag: u16) -> bool {
        self.flags & flag != 0
    }

    /// Inner row, or repr row.
    pub fn row(&self) -> Option<u16> {
        self.rows.get(0)
    }
}

#[derive(Clone, Debug, Default)]
pub struct Sheet<'a> {
    pub rows: Vec<Body<'a>>,
    pub items: Vec<Body<'a>>,
}

impl<'a> Sheet<'a> {
    pub fn row(&self, number: u16) -> Option<&Body<'a>> {
        self.rows.get(usize::from(number))
    }

    pub fn item(&self, number: u16) -> Option<&Body<'a>> {
        self.items.get(usize::from(number))
    }

    /// The name that a row is, if it is one.
    pub fn plain_name(&self, row: u16) -> Option<u16> {
        self.row(row).filter(|row| row.kind == row::IDENT).map(|row| row.name)
    }
}
