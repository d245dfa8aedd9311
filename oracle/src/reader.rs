//! Reads a sheet or refuses it: docs/SHEET.md.

use crate::sheet::*;

/// Number and position of a refusal, 2 to 8. (Refusal 1 is about the scratch,
/// which the Rust does not have.)
#[derive(Copy, Clone, Debug, PartialEq, Eq)]
pub struct Refusal {
    pub number: u8,
    pub position: usize,
}

type Result<T> = std::result::Result<T, Refusal>;

fn refuse<T>(number: u8, position: usize) -> Result<T> {
    Err(Refusal { number, position })
}

pub fn read(bytes: &[u8]) -> Result<Sheet> {
    if bytes.len() > MAX_BYTES {
        return refuse(2, 0);
    }
    if bytes.len() < 4 {
        return refuse(3, 0);
    }
    let rows = pair_at(bytes, 0) as usize;
    let items = pair_at(bytes, 2) as usize;
    if rows > MAX_ROWS {
        return refuse(4, 0);
    }
    if items > MAX_ITEMS {
        return refuse(4, 2);
    }
    let contents = 4 + 2 * (rows + items);
    if contents > bytes.len() {
        return refuse(5, 0);
    }
    let mut reader = Reader { bytes, at: contents, bound: 0, sheet: Sheet::default() };
    reader.read_rows(rows)?;
    reader.read_items(rows, items)?;
    if reader.at < bytes.len() {
        return refuse(5, reader.at);
    }
    Ok(reader.sheet)
}

fn pair_at(bytes: &[u8], at: usize) -> u16 {
    u16::from_le_bytes([bytes[at], bytes[at + 1]])
}

/// `at` is the place of the next pair; rows must be below `bound`.
struct Reader<'a> {
    bytes: &'a [u8],
    at: usize,
    bound: usize,
    sheet: Sheet,
}

impl Reader<'_> {
    fn read_rows(&mut self, rows: usize) -> Result<()> {
        let mut starts: Vec<usize> = Vec::new();
        for number in 0..rows {
            self.offset(number)?;
            self.bound = number;
            let start = self.at;
            let row = self.row()?;
            let body = &self.bytes[start..self.at];
            // Equal rows are equal pairs; a body's length follows from its
            // pairs, so no body is the beginning of another.
            if starts.iter().any(|&earlier| self.bytes[earlier..].starts_with(body)) {
                return refuse(8, start);
            }
            starts.push(start);
            self.sheet.rows.push(row);
        }
        Ok(())
    }

    fn read_items(&mut self, rows: usize, items: usize) -> Result<()> {
        self.bound = rows;
        for number in 0..items {
            self.offset(rows + number)?;
            let item = self.item()?;
            self.sheet.items.push(item);
        }
        Ok(())
    }

    fn offset(&self, body: usize) -> Result<()> {
        let place = 4 + 2 * body;
        if pair_at(self.bytes, place) as usize != self.at {
            return refuse(5, place);
        }
        Ok(())
    }

    fn pair(&mut self) -> Result<u16> {
        if self.at + 2 > self.bytes.len() {
            return refuse(5, self.bytes.len());
        }
        self.at += 2;
        Ok(pair_at(self.bytes, self.at - 2))
    }

    /// A pair with a largest allowed value.
    fn up_to(&mut self, most: u16) -> Result<u16> {
        let place = self.at;
        let value = self.pair()?;
        if value > most {
            return refuse(6, place);
        }
        Ok(value)
    }

    fn name(&mut self) -> Result<u16> {
        self.up_to(255)
    }

    fn row_number(&mut self) -> Result<u16> {
        let place = self.at;
        let value = self.pair()?;
        if value as usize >= self.bound {
            return refuse(7, place);
        }
        Ok(value)
    }

    fn ret(&mut self) -> Result<Option<u16>> {
        let place = self.at;
        let value = self.pair()?;
        if value == NONE {
            return Ok(None);
        }
        if value as usize >= self.bound {
            return refuse(7, place);
        }
        Ok(Some(value))
    }

    fn row_list(&mut self, most: u16) -> Result<Vec<u16>> {
        let count = self.up_to(most)?;
        (0..count).map(|_| self.row_number()).collect()
    }

    fn value_list(&mut self, most: u16, largest: u16) -> Result<Vec<u16>> {
        let count = self.up_to(most)?;
        (0..count).map(|_| self.up_to(largest)).collect()
    }

    fn lifetimes(&mut self) -> Result<Vec<u16>> {
        self.value_list(MAX_LIFETIMES, 255)
    }

    fn row(&mut self) -> Result<Row> {
        Ok(match self.up_to(13)? {
            0 => Row::Ident(self.name()?),
            kind @ 1..=6 => Row::Ty1 { kind, inner: self.row_number()? },
            7 => Row::Ref { flags: self.up_to(3)?, inner: self.row_number()? },
            8 => Row::Ptr { flags: self.up_to(1)?, inner: self.row_number()? },
            9 => Row::Str,
            10 => Row::SliceRef { flags: self.up_to(1)?, inner: self.row_number()? },
            11 => Row::Array { length: self.pair()?, inner: self.row_number()? },
            12 => {
                Row::Fn { flags: self.up_to(3)?, ret: self.ret()?, args: self.row_list(MAX_ARGS)? }
            }
            _ => Row::Void,
        })
    }

    fn head(&mut self) -> Result<Head> {
        Ok(Head {
            name: self.name()?,
            lifetimes: self.lifetimes()?,
            derives: self.value_list(MAX_DERIVES, 14)?,
        })
    }

    fn item(&mut self) -> Result<Item> {
        Ok(match self.up_to(8)? {
            0 => Item::Include,
            1 => Item::Struct { head: self.head()?, fields: self.row_list(MAX_FIELDS)? },
            2 => self.enumeration()?,
            3 => Item::CxxType { head: self.head()?, flags: self.up_to(3)? },
            4 => Item::RustType { head: self.head()?, flags: self.up_to(3)? },
            5 => Item::CxxFunction(self.function(7)?),
            6 => Item::RustFunction(self.function(3)?),
            7 => Item::TypeAlias { head: self.head()? },
            _ => Item::Impl {
                row: self.row_number()?,
                flags: self.up_to(1)?,
                lifetimes: self.lifetimes()?,
            },
        })
    }

    fn enumeration(&mut self) -> Result<Item> {
        let head = self.head()?;
        let place = self.at;
        let repr = self.row_number()?;
        if !matches!(self.sheet.rows[repr as usize], Row::Ident(_)) {
            return refuse(7, place);
        }
        let explicit = self.up_to(1)? == 1;
        let variants = self.up_to(MAX_VARIANTS)?;
        let defaults = self.up_to(variants)?;
        Ok(Item::Enum { head, repr, explicit, variants, defaults })
    }

    fn function(&mut self, flags: u16) -> Result<Function> {
        Ok(Function {
            name: self.name()?,
            flags: self.up_to(flags)?,
            lifetimes: self.lifetimes()?,
            form: match self.up_to(2)? {
                0 => Form::Free,
                1 => Form::Associated(self.name()?),
                _ => Form::Method { name: self.name()?, flags: self.up_to(3)? },
            },
            ret: self.ret()?,
            args: self.row_list(MAX_ARGS)?,
        })
    }
}
