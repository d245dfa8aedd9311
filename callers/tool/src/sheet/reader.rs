//! Reads a sheet as far as it goes, and says in words what stands where it does not. The verdict itself is the proved library's; a test holds
//! number and position of every fault here to it.

use crate::sheet::{
    Body, DERIVED, Form, ITEMS, Kinds, LAST_LIFETIME, LAST_NAME, MOST_BYTES, MOST_DERIVES, MOST_ITEMS, MOST_LIFETIMES, MOST_ROWS,
    MOST_VARIANTS, NONE, Pairs, Part, REFERENCE, ROWS, Sheet, row,
};
use crate::text::number::Count;
use std::collections::HashMap;
use std::fmt::{self, Display, Formatter};
use std::hash::{BuildHasherDefault, Hasher};

/// Why a sheet is refused.
#[derive(Clone, Debug, PartialEq, Eq)]
pub struct Fault {
    pub number: u8,
    pub position: usize,
    /// The part of the sheet that stands there.
    pub place: String,
    /// Its value, if it is a pair that stands there whole.
    pub found: Option<u16>,
    pub expected: String,
}

type Result<T> = std::result::Result<T, Box<Fault>>;

/// What was read, and the fault that ended it.
pub fn read(bytes: &[u8]) -> (Sheet<'_>, Option<Fault>) {
    let mut reader = Reader::new(bytes);
    let fault = reader.sheet(true).err().map(|fault| *fault);
    (reader.sheet, fault)
}

/// A sheet that the library accepts; so no two of its rows are equal, and it is not asked.
pub fn read_accepted(bytes: &[u8]) -> Sheet<'_> {
    let mut reader = Reader::new(bytes);
    // what there is of it, if the two should differ
    let _ = reader.sheet(false);
    reader.sheet
}

/// Which body is read.
#[derive(Clone, Copy)]
struct Which {
    word: &'static str,
    number: usize,
}

struct Reader<'a> {
    bytes: &'a [u8],
    /// The next pair.
    at: usize,
    /// Rows must be below.
    bound: usize,
    body: Option<Which>,
    /// The name of its kind, once that is read.
    kind: &'static str,
    sheet: Sheet<'a>,
}

impl<'a> Reader<'a> {
    fn new(bytes: &'a [u8]) -> Self {
        Self { bytes, at: 0, bound: 0, body: None, kind: "", sheet: Sheet::default() }
    }

    /// `unlike` is whether rows are asked to be unlike those before.
    fn sheet(&mut self, unlike: bool) -> Result<()> {
        let (rows, items) = self.contents()?;
        self.sheet = Sheet { rows: Vec::with_capacity(rows), items: Vec::with_capacity(items) };
        let mut seen = HashMap::with_capacity_and_hasher(if unlike { rows } else { 0 }, BuildHasherDefault::<Fnv>::default());
        for number in 0..rows {
            self.bound = number;
            let start = self.begin("row", number, number)?;
            let body = self.body("row", ROWS)?;
            if let Some(before) = unlike.then(|| seen.insert(body.pairs.0, number)).flatten() {
                return self.refuse(8, start, "", None, format_args!("a type that is in no row before; row {before} is the same"));
            }
            self.sheet.rows.push(body);
        }
        self.bound = rows;
        for number in 0..items {
            self.begin("item", number, rows + number)?;
            let body = self.body("item", ITEMS)?;
            self.sheet.items.push(body);
        }
        self.body = None;
        let left = self.bytes.len() - self.at;
        if left > 0 {
            let left = Count(left, "byte");
            return self.refuse(5, self.at, "after the last body", None, format_args!("the end of the sheet, and {left} more"));
        }
        Ok(())
    }

    /// How many rows and items there are; then the reader stands where the first body begins.
    fn contents(&mut self) -> Result<(usize, usize)> {
        let length = self.bytes.len();
        if length > MOST_BYTES {
            return self.refuse(2, 0, "the sheet", None, format_args!("at most {MOST_BYTES} bytes; it has more"));
        }
        if length < 4 {
            return self.refuse(3, 0, "the sheet", None, format_args!("at least 4 bytes, T and A; it has {length}"));
        }
        let counted = [("T, the number of rows", MOST_ROWS), ("A, the number of items", MOST_ITEMS)];
        let mut counts = [0; 2];
        for (at, (what, most)) in counted.into_iter().enumerate() {
            let count = self.pair_at(2 * at);
            if count > most {
                return self.refuse(4, 2 * at, what, Some(count), format_args!("at most {most}"));
            }
            counts[at] = usize::from(count);
        }
        let [rows, items] = counts;
        self.at = 4 + 2 * (rows + items);
        if self.at > length {
            let (bytes, offsets) = (self.at, Count(rows + items, "offset"));
            let expected = format_args!("{bytes} bytes, for T, A and {offsets}; the sheet has {length}");
            let contents = format_args!("the contents of {} and {}", Count(rows, "row"), Count(items, "item"));
            return self.refuse(5, 0, contents, None, expected);
        }
        Ok((rows, items))
    }

    /// Asks the offset of a body, and gives its place.
    fn begin(&mut self, word: &'static str, number: usize, offset: usize) -> Result<usize> {
        self.body = None;
        let (place, start) = (4 + 2 * offset, self.at);
        let found = self.pair_at(place);
        if usize::from(found) != start {
            let before = if offset == 0 { "the contents end" } else { "the body before ends" };
            return self.refuse(
                5,
                place,
                format_args!("the offset of {word} {number}"),
                Some(found),
                format_args!("{start}, where {before}"),
            );
        }
        (self.body, self.kind) = (Some(Which { word, number }), "");
        Ok(start)
    }

    fn body(&mut self, word: &str, kinds: &Kinds) -> Result<Body<'a>> {
        let start = self.at;
        let most = kinds.len() as u16 - 1;
        let (first, last) = (kinds[0].0, kinds[usize::from(most)].0);
        let expected = format_args!("a kind of {word}, 0 ({first}) to {most} ({last})");
        let mut body = Body { kind: self.up_to("kind", most, expected)?, ..Body::default() };
        let (name, parts) = kinds[usize::from(body.kind)];
        self.kind = name;
        for &part in parts {
            self.part(part, &mut body)?;
        }
        body.pairs = Pairs(&self.bytes[start..self.at]);
        Ok(body)
    }

    fn part(&mut self, part: Part, body: &mut Body<'a>) -> Result<()> {
        match part {
            Part::Name => body.name = self.name("name")?,
            Part::Flags(flags) => body.flags = self.flags("flags", flags)?,
            Part::Row(what) => body.rows = self.single(what)?,
            Part::Return => body.ret = self.ret()?,
            Part::Rows(what, most) => body.rows = self.rows(what, most)?,
            Part::Lifetimes => {
                body.lifetimes =
                    self.numbers("lifetime", MOST_LIFETIMES, LAST_LIFETIME, format_args!("a lifetime, 0 ('static) to {LAST_LIFETIME}"))?
            }
            Part::Derives => {
                let (last, name) = (DERIVED.len() as u16 - 1, DERIVED[DERIVED.len() - 1]);
                body.derives =
                    self.numbers("derive", MOST_DERIVES, last, format_args!("a derive, 0 ({}) to {last} ({name})", DERIVED[0]))?
            }
            Part::ArrayLength => body.array_length = self.pair("length", "an array's length")?,
            Part::Form => body.form = self.form()?,
            Part::Repr => body.rows = self.repr()?,
            Part::Explicit => body.explicit = self.up_to("explicit", 1, "0 or 1")? == 1,
            Part::Variants => body.variants = self.up_to("variants", MOST_VARIANTS, format_args!("at most {MOST_VARIANTS} variants"))?,
            Part::Defaults => {
                let most = body.variants;
                body.defaults =
                    self.up_to("variants marked default", most, format_args!("at most {most}, as many as there are variants"))?;
            }
        }
        Ok(())
    }

    fn form(&mut self) -> Result<Form> {
        Ok(match self.up_to("form", 2, "0 (free), 1 (associated) or 2 (method)")? {
            0 => Form::Free,
            1 => Form::Associated(self.name("self type")?),
            _ => {
                let name = self.name("receiver")?;
                Form::Method { name, flags: self.flags("flags of the receiver", REFERENCE)? }
            }
        })
    }

    fn repr(&mut self) -> Result<Pairs<'a>> {
        let place = self.at;
        let rows = self.single("repr row")?;
        let repr = self.sheet.row(rows.get(0).unwrap_or(NONE));
        if repr.is_none_or(|body| body.kind != row::IDENT) {
            let kind = repr.map_or("", |body| ROWS[usize::from(body.kind)].0);
            return self.refuse(7, place, "repr row", rows.get(0), format_args!("a row of kind 0 (Ident); that one is of kind {kind}"));
        }
        Ok(rows)
    }
}

/// Pairs.
impl<'a> Reader<'a> {
    /// What stands there and what was expected are written only here.
    fn refuse<T>(&self, number: u8, position: usize, what: impl Display, found: Option<u16>, expected: impl Display) -> Result<T> {
        let what = what.to_string();
        let place = match self.body {
            None => what,
            Some(Which { word, number }) => {
                let kind = if self.kind.is_empty() { String::new() } else { format!(" ({})", self.kind) };
                format!("{word} {number}{kind}{}{what}", if what.is_empty() { "" } else { ", " })
            }
        };
        Err(Box::new(Fault { number, position, place, found, expected: expected.to_string() }))
    }

    fn pair_at(&self, at: usize) -> u16 {
        u16::from_le_bytes([self.bytes[at], self.bytes[at + 1]])
    }

    fn pair(&mut self, what: impl Display, expected: impl Display) -> Result<u16> {
        if self.at + 2 > self.bytes.len() {
            return self.refuse(5, self.bytes.len(), what, None, format_args!("{expected}; the sheet ends before"));
        }
        self.at += 2;
        Ok(self.pair_at(self.at - 2))
    }

    fn up_to(&mut self, what: impl Display, most: u16, expected: impl Display) -> Result<u16> {
        let value = self.pair(&what, &expected)?;
        if value > most {
            return self.refuse(6, self.at - 2, what, Some(value), expected);
        }
        Ok(value)
    }

    fn name(&mut self, what: &str) -> Result<u16> {
        self.up_to(what, LAST_NAME, format_args!("a name, 0 to {LAST_NAME}"))
    }

    fn flags(&mut self, what: &str, flags: &'static [&str]) -> Result<u16> {
        self.up_to(what, (1 << flags.len()) - 1, Sum(flags))
    }

    fn count(&mut self, what: &str, most: u16) -> Result<usize> {
        self.up_to(format_args!("number of {what}s"), most, format_args!("at most {most} {what}s")).map(usize::from)
    }

    fn row(&mut self, what: impl Display, none: bool) -> Result<u16> {
        let expected = Row { body: self.body, bound: self.bound, none };
        let value = self.pair(&what, &expected)?;
        if usize::from(value) >= self.bound && !(none && value == NONE) {
            return self.refuse(7, self.at - 2, what, Some(value), expected);
        }
        Ok(value)
    }

    fn ret(&mut self) -> Result<Option<u16>> {
        Ok(Some(self.row("return", true)?).filter(|&row| row != NONE))
    }

    /// One row.
    fn single(&mut self, what: &str) -> Result<Pairs<'a>> {
        self.row(what, false)?;
        Ok(Pairs(&self.bytes[self.at - 2..self.at]))
    }

    fn rows(&mut self, what: &str, most: u16) -> Result<Pairs<'a>> {
        let count = self.count(what, most)?;
        let start = self.at;
        let whole = self.bytes.get(start..start + 2 * count).map(Pairs);
        if let Some(rows) = whole.filter(|rows| rows.iter().all(|row| usize::from(row) < self.bound)) {
            self.at += 2 * count;
            return Ok(rows);
        }
        // one of them is a fault
        for number in 0..count {
            self.row(format_args!("{what} {number}"), false)?;
        }
        Ok(Pairs(&self.bytes[start..self.at]))
    }

    fn numbers(&mut self, what: &str, most: u16, largest: u16, expected: impl Display) -> Result<Pairs<'a>> {
        let count = self.count(what, most)?;
        let start = self.at;
        for number in 0..count {
            self.up_to(format_args!("{what} {number}"), largest, &expected)?;
        }
        Ok(Pairs(&self.bytes[start..self.at]))
    }
}

/// The hash of Fowler, Noll and Vo: rows are short. Sheets that make it slow cost 1,024 rows a glance at each other.
struct Fnv(u64);

impl Default for Fnv {
    fn default() -> Self {
        Self(0xcbf2_9ce4_8422_2325)
    }
}

impl Hasher for Fnv {
    fn write(&mut self, bytes: &[u8]) {
        for byte in bytes {
            self.0 = (self.0 ^ u64::from(*byte)).wrapping_mul(0x100_0000_01b3);
        }
    }

    fn finish(&self) -> u64 {
        self.0
    }
}

/// The flags that may be set, in words.
struct Sum(&'static [&'static str]);

impl Display for Sum {
    fn fmt(&self, f: &mut Formatter) -> fmt::Result {
        write!(f, "0 or a sum of ")?;
        for (bit, flag) in self.0.iter().enumerate() {
            write!(f, "{}{} ({flag})", if bit == 0 { "" } else { ", " }, 1 << bit)?;
        }
        Ok(())
    }
}

/// The rows that may be named, in words.
struct Row {
    body: Option<Which>,
    bound: usize,
    none: bool,
}

impl Display for Row {
    fn fmt(&self, f: &mut Formatter) -> fmt::Result {
        let in_row = matches!(self.body, Some(Which { word: "row", .. }));
        match (in_row, self.bound, self.none) {
            (true, 0, false) => write!(f, "a row before row 0, and there is none"),
            (true, 0, true) => write!(f, "{NONE} for none; there is no row before row 0"),
            (true, bound, _) => write!(f, "a row before row {bound}"),
            (false, 0, false) => write!(f, "a row, and the sheet has none"),
            (false, 0, true) => write!(f, "{NONE} for none; the sheet has no row"),
            (false, 1, _) => write!(f, "row 0, the only one"),
            (false, bound, _) => write!(f, "a row, 0 to {}", bound - 1),
        }?;
        if self.none && self.bound > 0 { write!(f, ", or {NONE} for none") } else { Ok(()) }
    }
}
