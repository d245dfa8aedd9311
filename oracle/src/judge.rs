//! Runs the Rust on a sheet and reads the answer off what it leaves.

use crate::messages;
use crate::reader::{self, Refusal};
use crate::sheet::{Item, Row, Sheet};
use crate::syntax::check::{self, Generator};
use crate::syntax::report::Errors;
use crate::syntax::unpin::UnpinReason;
use crate::syntax::{Api, Type, Types};
use crate::{tiers, tree, unpin};
use proc_macro2::{Ident, Span};
use std::time::{Duration, Instant};

/// Rows may unfold to this many tree nodes in all (docs/DECISIONS.md, A16).
pub const MOST_NODES: u64 = 10_000;
/// What the items use may unfold to this many, so that it fits in memory.
pub const MOST_USED_NODES: u64 = 5_000_000;

pub enum Outcome {
    Refused(Refusal),
    TooLarge,
    Accepted(Box<Answer>),
}

pub const SETS: [&str; 8] =
    ["structs", "enums", "cxx", "rust", "aliases", "untrusted", "required-trivial", "improper"];

/// Name n is bit n mod 64 of word n / 64.
pub type Set = [u64; 4];

pub struct Answer {
    pub sets: [Set; 8],
    pub reasons: [u16; 256],
    /// Why a name must be Unpin, as the Rust has it: of aliases alone.
    pub required_unpin: [Option<Reason>; 256],
    /// The same of every C++ name.
    pub unpin: [Option<Reason>; 256],
    /// Struct items in order.
    pub order: Vec<u8>,
    /// By item number.
    pub tiers: Vec<u8>,
    /// Rows in the order in which they were collected.
    pub collected: Vec<u16>,
    pub records: Vec<Record>,
}

/// Why a name must be Unpin: a mutable reference or slice, or a method.
#[derive(Copy, Clone, Debug, PartialEq, Eq)]
pub enum Reason {
    Row(u16),
    Item(u8),
}

/// `second` is 0 for the places with one number.
#[derive(Copy, Clone, Debug, PartialEq, Eq)]
pub struct Record {
    pub message: u8,
    pub letter: u8,
    pub first: u16,
    pub second: u16,
    pub detail: u16,
}

pub fn judge(bytes: &[u8]) -> Outcome {
    match reader::read(bytes) {
        Err(refusal) => Outcome::Refused(refusal),
        Ok(sheet) if too_large(&sheet) => Outcome::TooLarge,
        Ok(sheet) => Outcome::Accepted(Box::new(answer(&sheet))),
    }
}

pub fn too_large(sheet: &Sheet) -> bool {
    let sizes = sheet.tree_sizes();
    let sum = |total: u64, size: u64| total.saturating_add(size);
    let uses = sheet.items.iter().flat_map(Item::uses);
    sizes.iter().copied().fold(0, sum) > MOST_NODES
        || uses.map(|row| sizes[row as usize]).fold(0, sum) > MOST_USED_NODES
}

fn answer(sheet: &Sheet) -> Answer {
    let apis = tree::build(sheet);
    let mut errors = Errors::new();
    let types = run(&mut errors, &apis);
    let reasons = reasons(&types);
    let collected: Vec<u16> = types.all.keys().map(|ty| row_of(ty)).collect();
    Answer {
        sets: sets(&types),
        required_unpin: required_unpin(&types),
        unpin: unpin::reasons(sheet, &collected),
        order: order(&types),
        tiers: tiers::tiers(sheet),
        collected,
        records: errors.errors.iter().map(|error| record(sheet, &reasons, error)).collect(),
        reasons,
    }
}

/// The call that is judged.
fn run<'a>(errors: &mut Errors, apis: &'a [Api]) -> Types<'a> {
    let types = Types::collect(errors, apis);
    check::typecheck(errors, apis, &types, Generator::Build);
    types
}

/// A sheet that is judged, its tree built once for any number of calls.
pub struct Prepared(Vec<Api>);

impl Prepared {
    /// None for sheets that are not judged.
    pub fn of(bytes: &[u8]) -> Option<Self> {
        let sheet = reader::read(bytes).ok().filter(|sheet| !too_large(sheet))?;
        Some(Self(tree::build(&sheet)))
    }

    /// The time that the call takes, without dropping the answer after; and
    /// the number of records.
    pub fn time(&self) -> (Duration, usize) {
        let start = Instant::now();
        let mut errors = Errors::new();
        let types = run(&mut errors, &self.0);
        let time = start.elapsed();
        drop(types);
        (time, errors.errors.len())
    }
}

/// The time of one call, without building the tree before. None for sheets
/// that are not judged.
pub fn bench(bytes: &[u8]) -> Option<(Duration, usize)> {
    Some(Prepared::of(bytes)?.time())
}

/// The records of a sheet with the error list that they were read off. None
/// for sheets that are not judged.
fn recorded(bytes: &[u8]) -> Option<(Vec<Record>, Errors)> {
    let sheet = reader::read(bytes).ok().filter(|sheet| !too_large(sheet))?;
    let apis = tree::build(&sheet);
    let mut errors = Errors::new();
    let reasons = reasons(&run(&mut errors, &apis));
    let records = errors.errors.iter().map(|error| record(&sheet, &reasons, error));
    Some((records.collect(), errors))
}

/// Each record with the text of its error call.
pub fn with_texts(bytes: &[u8]) -> Vec<(Record, String)> {
    let Some((records, errors)) = recorded(bytes) else {
        return Vec::new();
    };
    records.into_iter().zip(errors.errors.into_iter().map(|error| error.text)).collect()
}

/// Each record with the source line of its error call.
#[cfg(feature = "lines")]
pub fn with_lines(bytes: &[u8]) -> Vec<(Record, crate::lines::Line)> {
    let Some((records, errors)) = recorded(bytes) else {
        return Vec::new();
    };
    records.into_iter().zip(errors.lines).collect()
}

fn names() -> impl Iterator<Item = (usize, Ident)> {
    (0..256).map(|name| (name, Ident::numbered(name as u16, Span::call_site())))
}

fn sets(types: &Types) -> [Set; 8] {
    let mut sets = [[0; 4]; 8];
    for (name, ident) in names() {
        let member = [
            types.structs.contains_key(&ident),
            types.enums.contains_key(&ident),
            types.cxx.contains(&ident),
            types.rust.contains(&ident),
            types.aliases.contains_key(&ident),
            types.untrusted.contains_key(&ident),
            types.required_trivial.contains_key(&ident),
            types.struct_improper_ctypes.contains(&ident),
        ];
        for (set, is_member) in sets.iter_mut().zip(member) {
            set[name / 64] |= (is_member as u64) << (name % 64);
        }
    }
    sets
}

fn reasons(types: &Types) -> [u16; 256] {
    let mut reasons = [0; 256];
    for (name, ident) in names() {
        let found = types.required_trivial.get(&ident);
        reasons[name] = found.map_or(0, |list| list.len() as u16);
    }
    reasons
}

fn required_unpin(types: &Types) -> [Option<Reason>; 256] {
    let mut reasons = [None; 256];
    for (name, ident) in names() {
        reasons[name] = types.required_unpin.get(&ident).map(unpin_reason);
    }
    reasons
}

/// A receiver's type has the place of its item.
fn unpin_reason(reason: &UnpinReason) -> Reason {
    let number = |span: Span, letter: u8| {
        assert!(span.letter == letter, "a reason at another place");
        span.first
    };
    match reason {
        UnpinReason::Receiver(receiver) => Reason::Item(number(receiver.ty.rust.span, b'I') as u8),
        UnpinReason::Ref(ty) => Reason::Row(number(ty.span, b'R')),
        UnpinReason::Slice(ty) => Reason::Row(number(ty.span, b'R')),
    }
}

fn order(types: &Types) -> Vec<u8> {
    let structs = types.toposorted_structs.iter();
    structs.map(|strct| strct.span.first as u8).collect()
}

fn row_of(ty: &Type) -> u16 {
    let span = match ty {
        Type::Ident(ty) => ty.rust.span,
        Type::RustBox(ty)
        | Type::RustVec(ty)
        | Type::UniquePtr(ty)
        | Type::SharedPtr(ty)
        | Type::WeakPtr(ty)
        | Type::CxxVector(ty) => ty.span,
        Type::Ref(ty) | Type::Str(ty) => ty.span,
        Type::Ptr(ty) => ty.span,
        Type::Fn(ty) => ty.span,
        Type::Void(ty) => ty.span,
        Type::SliceRef(ty) => ty.span,
        Type::Array(ty) => ty.span,
    };
    span.first
}

fn record(sheet: &Sheet, reasons: &[u16; 256], error: &syn::Error) -> Record {
    let Span { letter, first, second } = error.span;
    assert!(letter != 0, "a subject without a place: {}", error.text);
    let item = || &sheet.items[first as usize];
    let message = messages::number(&error.text, || generic_impl(sheet, item()));
    let detail = match message {
        38 => reasons[declared(item()) as usize],
        message => messages::detail(message, &error.text),
    };
    Record { message, letter, first, second, detail }
}

fn generic_impl(sheet: &Sheet, item: &Item) -> bool {
    match item {
        Item::Impl { row, .. } => matches!(sheet.rows[*row as usize], Row::Ty1 { .. }),
        _ => panic!("a message about an impl at another item"),
    }
}

fn declared(item: &Item) -> u16 {
    match item {
        Item::CxxType { head, .. } | Item::RustType { head, .. } => head.name,
        _ => panic!("a message about an extern type at another item"),
    }
}
