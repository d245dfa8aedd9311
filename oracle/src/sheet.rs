//! What stands in an accepted sheet, in the words of docs/SHEET.md.

pub const MAX_BYTES: usize = 32_768;
pub const MAX_ROWS: usize = 1_024;
pub const MAX_ITEMS: usize = 255;
pub const MAX_FIELDS: u16 = 64;
pub const MAX_ARGS: u16 = 16;
pub const MAX_DERIVES: u16 = 16;
pub const MAX_LIFETIMES: u16 = 8;
pub const MAX_VARIANTS: u16 = 255;
/// In the place of a return row: no return.
pub const NONE: u16 = 65_535;

#[derive(Debug, Default)]
pub struct Sheet {
    pub rows: Vec<Row>,
    pub items: Vec<Item>,
}

#[derive(Debug)]
pub enum Row {
    Ident(u16),
    /// Kinds 1 to 6.
    Ty1 {
        kind: u16,
        inner: u16,
    },
    Ref {
        flags: u16,
        inner: u16,
    },
    Ptr {
        flags: u16,
        inner: u16,
    },
    Str,
    SliceRef {
        flags: u16,
        inner: u16,
    },
    Array {
        length: u16,
        inner: u16,
    },
    Fn {
        flags: u16,
        ret: Option<u16>,
        args: Vec<u16>,
    },
    Void,
}

#[derive(Debug)]
pub enum Item {
    Include,
    Struct { head: Head, fields: Vec<u16> },
    Enum { head: Head, repr: u16, explicit: bool, variants: u16, defaults: u16 },
    CxxType { head: Head, flags: u16 },
    RustType { head: Head, flags: u16 },
    CxxFunction(Function),
    RustFunction(Function),
    TypeAlias { head: Head },
    Impl { row: u16, flags: u16, lifetimes: Vec<u16> },
}

/// How the items that declare a type begin.
#[derive(Debug)]
pub struct Head {
    pub name: u16,
    pub lifetimes: Vec<u16>,
    pub derives: Vec<u16>,
}

#[derive(Debug)]
pub struct Function {
    pub name: u16,
    pub flags: u16,
    pub lifetimes: Vec<u16>,
    pub form: Form,
    pub ret: Option<u16>,
    pub args: Vec<u16>,
}

#[derive(Debug)]
pub enum Form {
    Free,
    Associated(u16),
    Method { name: u16, flags: u16 },
}

impl Row {
    /// The rows that this one refers to.
    pub fn parts(&self) -> Vec<u16> {
        match self {
            Row::Ident(_) | Row::Str | Row::Void => Vec::new(),
            Row::Ty1 { inner, .. }
            | Row::Ref { inner, .. }
            | Row::Ptr { inner, .. }
            | Row::SliceRef { inner, .. }
            | Row::Array { inner, .. } => vec![*inner],
            Row::Fn { ret, args, .. } => ret.iter().chain(args).copied().collect(),
        }
    }
}

impl Item {
    /// The rows that this item uses, each as often as it does.
    pub fn uses(&self) -> Vec<u16> {
        match self {
            Item::Struct { fields, .. } => fields.clone(),
            Item::Enum { repr, .. } => vec![*repr],
            Item::CxxFunction(f) | Item::RustFunction(f) => {
                f.args.iter().chain(&f.ret).copied().collect()
            }
            Item::Impl { row, .. } => vec![*row],
            _ => Vec::new(),
        }
    }
}

impl Sheet {
    /// Nodes of the tree that each row unfolds to.
    pub fn tree_sizes(&self) -> Vec<u64> {
        let mut sizes: Vec<u64> = Vec::new();
        for row in &self.rows {
            let parts = row.parts();
            let below = parts.iter().map(|&part| sizes[part as usize]);
            sizes.push(below.fold(1, u64::saturating_add));
        }
        sizes
    }
}
