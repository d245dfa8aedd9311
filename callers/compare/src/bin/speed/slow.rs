//! Sheets that are made to be slow, each with what it is.

use crate::measure::{Bench, Sample};
use crate::stack;
use oracle::generate::Draft;
use oracle::sheet::MAX_BYTES;

type Sheets = Vec<(&'static str, Vec<u8>)>;

/// The sheet with the longest report.
pub const LONGEST: &str = "chain of 225 structs, each field its head, a RustType too";

pub struct Slow {
    pub sample: Sample,
    /// Bytes of stack that one call takes.
    pub stack: usize,
}

pub fn measured(bench: &mut Bench) -> Result<Vec<Slow>, String> {
    let measure = |(about, sheet): (&str, Vec<u8>)| Ok(Slow { stack: stack::of(&sheet), sample: bench.sheet(about.to_string(), &sheet)? });
    sheets().into_iter().map(measure).collect()
}

pub fn sheets() -> Sheets {
    let structs = [neighbours(), knot(), chains(), too_deep(), improper(), zigzag(), deep()];
    let others = [functions(), handles(), signatures(), impls(), enums(), longest()];
    structs.into_iter().chain(others).flatten().collect()
}

/// Whether the last item has its place; it is taken back if not.
fn fits(draft: &mut Draft) -> bool {
    let fits = draft.len() <= MAX_BYTES;
    if !fits {
        draft.items.pop();
    }
    fits
}

/// Structs whose fields are the next structs by value, or the ones before: as many edges as fields.
fn neighbours() -> Sheets {
    let sheet = |(about, ahead)| {
        let mut draft = Draft::new();
        let rows: Vec<u16> = (24..=255).map(|name| draft.name(name)).collect();
        for i in 0..rows.len() {
            let next = || rows[i + 1..].iter().take(63).copied().collect();
            let last = || rows[..i].iter().rev().take(63).copied().collect();
            let fields: Vec<u16> = if ahead { next() } else { last() };
            draft.strct(24 + i as u16, &fields);
            if !fits(&mut draft) {
                break;
            }
        }
        (about, draft.bytes())
    };
    [("structs, fields are the next 63 structs", true), ("structs, fields are the 63 before", false)].map(sheet).into()
}

/// Every struct has every struct.
fn knot() -> Sheets {
    let mut draft = Draft::new();
    let rows: Vec<u16> = (24..=87).map(|name| draft.name(name)).collect();
    for i in 0..230 {
        draft.strct(24 + (i % 64), &rows);
        if !fits(&mut draft) {
            break;
        }
    }
    vec![("64 names, every struct has a field of each", draft.bytes())]
}

/// 255 structs, each with fields of the next one; then fewer fields, with lifetimes and derives before them.
fn chains() -> Sheets {
    let derives = [8, 1, 2, 3, 4, 5, 6, 7, 8, 16, 0, 1, 2, 3, 4, 5, 6, 7, 8, 9, 10, 11, 12, 13, 14, 0];
    let sheet = |(about, head): (_, &[u16])| {
        let mut draft = Draft::new();
        let rows: Vec<u16> = (1..=255).map(|name| draft.name(name)).collect();
        let fields = 57 - head.len();
        for i in 0..255 {
            draft.item(&[&[1, 1 + i as u16], head, &[fields as u16], &vec![rows[(i + 1).min(254)]; fields]]);
        }
        (about, draft.bytes())
    };
    [("chain of 255 structs, 55 fields each", &[0, 0][..]), ("chain of 255 structs, derives, lifetimes", &derives)].map(sheet).into()
}

/// More tree nodes than the Rust is asked to judge: 1,024 rows, each over the one before, or over it 12 times.
fn too_deep() -> Sheets {
    let sheet = |(about, front, times): (_, &[u16], _)| {
        let mut draft = Draft::new();
        let mut last = draft.name(24);
        while draft.rows.len() < 1024 && draft.len() < MAX_BYTES - 400 {
            last = draft.row(&[front, &vec![last; times]].concat());
        }
        draft.strct(24, &[last; 64]);
        draft.strct(25, &[last; 64]);
        while draft.items.len() < 255 && draft.len() < MAX_BYTES - 150 {
            draft.strct(26 + draft.items.len() as u16 % 200, &[last; 64]);
        }
        (about, draft.bytes())
    };
    let sheets: [(_, &[u16], _); 3] = [
        ("1,024 rows, each a reference to the last", &[7, 1], 1),
        ("1,024 rows, arrays", &[11, 2], 1),
        ("rows of functions, each 12 times over the last", &[12, 0, 65_535, 12], 12),
    ];
    sheets.map(sheet).into()
}

/// 225 structs, each improper only because the one after it on the path is, the last one by a text: as many passes as structs, at worst.
fn path(path: &[usize]) -> Vec<u8> {
    let mut draft = Draft::new();
    let rows: Vec<u16> = (24..=248).map(|name| draft.name(name)).collect();
    let (plain, text) = (draft.name(2), draft.name(15));
    let mut next = vec![text; rows.len()];
    for step in path.windows(2) {
        next[step[0]] = rows[step[1]];
    }
    for (i, &next) in next.iter().enumerate() {
        draft.strct(24 + i as u16, &[&[plain; 62][..], &[next]].concat());
    }
    draft.bytes()
}

fn improper() -> Sheets {
    let up: Vec<usize> = (0..225).collect();
    let down: Vec<usize> = (0..225).rev().collect();
    vec![("improper by the next struct, 63 fields", path(&up)), ("improper by the struct before, 63 fields", path(&down))]
}

/// From the first struct to the last, the second, the last but one.
fn zigzag() -> Sheets {
    let zigzag: Vec<usize> = (0..225).map(|k| if k % 2 == 0 { k / 2 } else { 224 - k / 2 }).collect();
    vec![("improper, zigzag: each found name far from the last", path(&zigzag))]
}

/// Rows over rows, 135 deep, so that all unfold to less than 10,000 nodes; the deepest 64 are the fields.
fn deep() -> Sheets {
    let sheet = |(about, front): (_, &[u16])| {
        let mut draft = Draft::new();
        let mut rows = vec![draft.name(24)];
        for last in 0..134 {
            rows.push(draft.row(&[front, &[last]].concat()));
        }
        let fields: Vec<u16> = rows.iter().rev().take(64).copied().collect();
        while draft.items.len() < 220 {
            draft.strct(24 + (draft.items.len() % 200) as u16, &fields);
            if !fits(&mut draft) {
                break;
            }
        }
        (about, draft.bytes())
    };
    let sheets: [(_, &[u16]); 3] = [
        ("structs over references, 135 deep", &[7, 1]),
        ("structs over arrays, 135 deep", &[11, 3]),
        ("structs over boxes, 135 deep", &[1]),
    ];
    sheets.map(sheet).into()
}

fn functions() -> Sheets {
    let sheet = |(about, flags, form): (_, u16, &[u16])| {
        let mut draft = Draft::new();
        let rows: Vec<u16> = (20..60).map(|name| draft.name(name)).collect();
        let more: Vec<u16> = rows.iter().map(|&row| draft.row(&[7, 1, row])).collect();
        for i in 0..255u16 {
            let at = |j: u16| usize::from(i + j) % 40;
            let args: Vec<u16> = (0..16).map(|j| if j % 2 == 0 { more[at(j)] } else { rows[at(j)] }).collect();
            draft.item(&[&[5 + i % 2, i, flags, 0], form, &[more[at(0)], 16], &args]);
        }
        (about, draft.bytes())
    };
    let sheets: [(_, u16, &[u16]); 2] =
        [("255 functions of 16 arguments", 0, &[0]), ("255 methods, lifetimes, &mut return", 2, &[2, 30, 0])];
    sheets.map(sheet).into()
}

/// Aliases with mutable slices and references, which are the arguments of methods whose receivers are mutable: all of them are reasons to be Unpin.
fn handles() -> Sheets {
    let sheet = |(about, aliases): (_, u16)| {
        let mut draft = Draft::new();
        let mut rows = Vec::new();
        for name in 24..24 + aliases {
            let plain = draft.name(name);
            rows.extend([draft.row(&[10, 1, plain]), draft.row(&[7, 1, plain])]);
            draft.item(&[&[7, name, 0, 0]]);
        }
        for i in aliases..255 {
            let args: Vec<u16> = (0..16).map(|j| rows[usize::from(i * 16 + j) % rows.len()]).collect();
            draft.item(&[&[5, i, 0, 0, 2, 24 + i % aliases, 1, 65_535, 16], &args]);
        }
        (about, draft.bytes())
    };
    [("226 aliases, slices and references, 29 methods", 226), ("28 aliases, slices and references, 227 methods", 28)].map(sheet).into()
}

fn signatures() -> Sheets {
    let mut draft = Draft::new();
    let names: Vec<u16> = (0..60).map(|name| draft.name(name)).collect();
    let mut functions = Vec::new();
    for i in 0..570usize {
        let args: Vec<u16> = (0..16).map(|j| names[(i * (j + 1) + j + i / 60 * j * j) % 60]).collect();
        functions.push(draft.row(&[&[12, 0, names[i % 60], 16][..], &args].concat()));
    }
    for i in 0..255 {
        let fields: Vec<u16> = (0..12).map(|j| functions[(i * 12 + j) % functions.len()]).collect();
        draft.strct(24 + (i % 200) as u16, &fields);
        if !fits(&mut draft) {
            break;
        }
    }
    vec![("rows of functions with 16 arguments", draft.bytes())]
}

fn impls() -> Sheets {
    let mut draft = Draft::new();
    for name in 0..=255 {
        draft.name(name);
    }
    for kind in 1..=3 {
        for row in 0..256 {
            draft.row(&[kind, row]);
        }
    }
    for i in 0..255u16 {
        draft.item(&[&[8, 256 + i * 3, 0, 0]]);
    }
    vec![("1,024 rows, 255 impls", draft.bytes())]
}

/// Of eight names, with all derives.
fn enums() -> Sheets {
    let mut draft = Draft::new();
    let repr = draft.name(3);
    let derives: Vec<u16> = (0..16).map(|derive| derive % 15).collect();
    for i in 0..255u16 {
        draft.item(&[&[2, 24 + i % 8, 8, 1, 2, 3, 4, 5, 6, 7, 8, 16], &derives, &[repr, 1, 255, 255]]);
    }
    vec![("255 enums, 16 derives and 8 lifetimes each", draft.bytes())]
}

/// A ring of structs whose other fields are all the head, which is a Rust type too: two records for every field.
fn longest() -> Sheets {
    let mut draft = Draft::new();
    let rows: Vec<u16> = (24..249).map(|name| draft.name(name)).collect();
    draft.item(&[&[4, 24, 0, 0, 0]]);
    let count = rows.len();
    let fields = (MAX_BYTES - draft.len() - 12 * count) / 2;
    for i in 0..count {
        let mut own = vec![rows[0]; fields / count + usize::from(i < fields % count)];
        own[0] = rows[(i + 1) % count];
        draft.strct(24 + i as u16, &own);
    }
    vec![(LONGEST, draft.bytes())]
}
