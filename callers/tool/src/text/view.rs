//! A sheet in the words of a person: texts of rows and declarations, and where rows are used. What a sheet does not need is not made.

use crate::sheet::{Sheet, item};
use crate::text::declaration::{Declaration, Part};
use crate::text::names::Names;
use crate::text::types::Types;
use crate::text::uses::{self, ByValue, Use};
use std::cell::OnceCell;
use tirvouez::{Letter, Record};

pub struct View<'a> {
    pub sheet: Sheet<'a>,
    pub names: &'a Names,
    pub types: Types,
    declarations: Vec<OnceCell<Declaration<'a>>>,
    uses: OnceCell<Vec<Option<Use>>>,
    by_value: OnceCell<Vec<ByValue>>,
}

impl<'a> View<'a> {
    pub fn new(sheet: Sheet<'a>, names: &'a Names) -> Self {
        let declarations = (0..sheet.items.len()).map(|_| OnceCell::new()).collect();
        Self { types: Types::of(&sheet, names), sheet, names, declarations, uses: OnceCell::new(), by_value: OnceCell::new() }
    }

    pub fn declaration(&self, item: u16) -> Option<&Declaration<'a>> {
        let cell = self.declarations.get(usize::from(item))?;
        Some(cell.get_or_init(|| Declaration::of(&self.sheet.items[usize::from(item)], &self.types, self.names)))
    }

    fn uses(&self) -> &[Option<Use>] {
        self.uses.get_or_init(|| uses::first(&self.sheet))
    }

    /// The first use of a row.
    pub fn first_use(&self, row: u16) -> Option<Use> {
        self.uses().get(usize::from(row)).copied().flatten()
    }

    /// What a name is used as by value, in words.
    pub fn by_value(&self, name: u16) -> String {
        let names = self.by_value.get_or_init(|| uses::by_value(&self.sheet, self.uses()));
        names[usize::from(name)].text(self.names.of(name), self.names)
    }

    /// The row of the field, argument or return that a record is about.
    pub fn place_row(&self, record: &Record) -> Option<u16> {
        let item = self.sheet.item(record.first)?;
        match Letter::of(record.letter)? {
            Letter::Field | Letter::Argument => item.rows.get(usize::from(record.second)),
            Letter::Return => item.ret,
            _ => None,
        }
    }

    /// The item that a record's place is in, and the part of its declaration.
    pub fn place(&self, record: &Record) -> Option<Use> {
        let Record { first: item, second, .. } = *record;
        let part = match Letter::of(record.letter)? {
            Letter::Row | Letter::RowArgument => return self.first_use(record.first),
            Letter::Item => self.item_part(record),
            Letter::Field | Letter::Argument => Part::Listed(second),
            Letter::Return => Part::Return,
            Letter::Derive => Part::Derive(second),
            Letter::Lifetime => Part::Lifetime(second),
        };
        Some(Use { item, part })
    }

    /// The part of an item that a message about the item is about.
    fn item_part(&self, record: &Record) -> Part {
        match (record.message, self.sheet.item(record.first).map(|body| body.kind)) {
            (37, _) => Part::Bounds,
            (41..=46, _) => Part::Receiver,
            (56, _) => Part::Return,
            (_, Some(item::IMPL)) => Part::Row,
            _ => Part::Name,
        }
    }

    /// The row of a part.
    pub fn used_row(&self, used: Use) -> Option<u16> {
        let body = self.sheet.item(used.item)?;
        match used.part {
            Part::Listed(number) => body.rows.get(usize::from(number)),
            Part::Return => body.ret,
            _ => body.row(),
        }
    }
}
