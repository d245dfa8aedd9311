//! Messages 27 to 58, at an item.

use super::collect::{Names, atom, plain};
use super::record;
use super::rows::{describe, is_unsized};
use oracle::judge::Record;
use oracle::sheet::{Form, Function, Head, Item, Row, Sheet};

/// One item's turn.
struct Turn<'a> {
    sheet: &'a Sheet,
    names: &'a Names,
    item: usize,
    records: &'a mut Vec<Record>,
}

pub fn check(sheet: &Sheet, names: &Names, item: usize, records: &mut Vec<Record>) {
    let mut turn = Turn { sheet, names, item, records };
    match &sheet.items[item] {
        Item::Include => {}
        Item::Struct { head, fields } => turn.strct(head, fields),
        Item::Enum { head, explicit, variants, defaults, .. } => {
            turn.head(head);
            if *variants == 0 && !explicit {
                turn.say(33);
            }
            turn.derives(head, |derive| match derive {
                3 if *defaults != 1 => Some((34, *defaults)),
                14 => Some((35, 0)),
                _ => None,
            });
        }
        Item::CxxType { head, flags } => turn.extern_type(head, *flags, false),
        Item::RustType { head, flags } => turn.extern_type(head, *flags, true),
        Item::CxxFunction(function) => turn.function(function, false),
        Item::RustFunction(function) => turn.function(function, true),
        Item::TypeAlias { head } => {
            turn.lifetimes(&head.lifetimes);
            turn.derives(head, |_| Some((52, 0)));
        }
        Item::Impl { row, flags, lifetimes } => {
            turn.lifetimes(lifetimes);
            match sheet.rows[*row as usize] {
                _ if *flags == 1 => turn.say(53),
                Row::Ty1 { inner, .. } if plain(sheet, inner).is_some_and(atom) => turn.say(54),
                Row::Ty1 { .. } => {}
                _ => turn.say(55),
            }
        }
    }
}

impl Turn<'_> {
    fn say(&mut self, message: u8) {
        self.at(message, 'I', 0, 0);
    }

    fn at(&mut self, message: u8, letter: char, second: usize, detail: u16) {
        self.records.push(record(message, letter, self.item, second, detail));
    }

    fn head(&mut self, head: &Head) {
        if head.name <= 22 {
            self.say(57);
        }
        self.lifetimes(&head.lifetimes);
    }

    fn lifetimes(&mut self, lifetimes: &[u16]) {
        for (index, &lifetime) in lifetimes.iter().enumerate() {
            if lifetime == 0 {
                self.at(58, 'L', index, 0);
            }
        }
    }

    fn derives(&mut self, head: &Head, message: impl Fn(u16) -> Option<(u8, u16)>) {
        for (index, &derive) in head.derives.iter().enumerate() {
            if let Some((message, detail)) = message(derive) {
                self.at(message, 'D', index, detail);
            }
        }
    }

    fn strct(&mut self, head: &Head, fields: &[u16]) {
        self.head(head);
        if fields.is_empty() {
            self.say(27);
        }
        if let Some(untrusted) = self.names.untrusted[head.name as usize] {
            self.records.push(record(28, 'I', untrusted, 0, 0));
        }
        self.derives(head, |derive| match derive {
            11..=13 => Some((29, 0)),
            14 => Some((30, 0)),
            _ => None,
        });
        for (index, &field) in fields.iter().enumerate() {
            if self.is_fn(field) {
                self.at(31, 'F', index, 0);
            } else if is_unsized(self.sheet, self.names, field) {
                self.at(32, 'F', index, describe(self.sheet, self.names, field));
            }
        }
    }

    fn is_fn(&self, row: u16) -> bool {
        matches!(self.sheet.rows[row as usize], Row::Fn { .. })
    }

    fn extern_type(&mut self, head: &Head, flags: u16, rust: bool) {
        self.head(head);
        self.derives(head, |derive| (derive != 14 || !rust).then_some((36, 0)));
        if flags & 2 != 0 {
            self.say(37);
        }
        let reasons = self.names.reasons[head.name as usize];
        if reasons > 0 {
            self.at(38, 'I', 0, reasons);
        }
    }

    fn function(&mut self, function: &Function, rust: bool) {
        let is_unsafe = function.flags & 1 != 0;
        let trusted = function.flags & 2 != 0;
        if !function.lifetimes.is_empty() {
            match rust {
                false if !trusted => self.say(39),
                true if !is_unsafe => self.say(40),
                _ => {}
            }
        }
        self.lifetimes(&function.lifetimes);
        self.form(&function.form);
        for (index, &arg) in function.args.iter().enumerate() {
            match self.sheet.rows[arg as usize] {
                Row::Fn { .. } if rust => self.at(47, 'A', index, 0),
                Row::Fn { .. } => {}
                Row::Ptr { .. } if !is_unsafe => self.at(48, 'A', index, 0),
                _ if is_unsized(self.sheet, self.names, arg) => {
                    self.at(49, 'A', index, describe(self.sheet, self.names, arg));
                }
                _ => {}
            }
        }
        if let Some(ret) = function.ret {
            if self.is_fn(ret) {
                self.at(50, 'O', 0, 0);
            } else if is_unsized(self.sheet, self.names, ret) {
                self.at(51, 'O', 0, describe(self.sheet, self.names, ret));
            }
        }
        let unwind = function.flags & 4 != 0;
        if !rust && !unwind && !is_unsafe && self.mut_return(function) {
            self.say(56);
        }
    }

    fn form(&mut self, form: &Form) {
        let names = self.names;
        let known = |n: usize| names.strct[n].is_some() || names.cxx[n] || names.rust[n];
        match *form {
            Form::Free => {}
            Form::Associated(name) if names.enm[name as usize] => self.say(45),
            Form::Associated(name) if !known(name as usize) => self.say(46),
            Form::Associated(_) => {}
            Form::Method { name: 23, .. } => self.say(41),
            Form::Method { name, .. } if names.enm[name as usize] => self.say(42),
            Form::Method { name, .. } if !known(name as usize) => self.say(43),
            Form::Method { name, flags: 1 } if names.only_cxx(name) => self.say(44),
            Form::Method { .. } => {}
        }
    }

    /// Whether &mut comes back with no &mut, or lifetime, to come from.
    fn mut_return(&self, function: &Function) -> bool {
        let Some(ret) = function.ret else {
            return false;
        };
        match self.sheet.rows[ret as usize] {
            Row::Ref { flags, .. } | Row::SliceRef { flags, .. } if flags & 1 != 0 => {}
            _ => return false,
        }
        if let Form::Method { name, flags } = function.form
            && (flags & 1 != 0 || self.names.resolved[name as usize] != Some(false))
        {
            return false;
        }
        !function.args.iter().any(|&arg| self.lends(arg))
    }

    fn lends(&self, row: u16) -> bool {
        let row = &self.sheet.rows[row as usize];
        let here = match *row {
            Row::Ref { flags, .. } | Row::SliceRef { flags, .. } => flags & 1 != 0,
            Row::Ident(name) => !atom(name) && self.names.resolved[name as usize] != Some(false),
            _ => false,
        };
        here || row.parts().into_iter().any(|part| self.lends(part))
    }
}
