//! Reasons to be Unpin: three passes, each putting its reasons over those
//! that stand.

use super::collect::{Names, plain};
use oracle::judge::Reason;
use oracle::sheet::{Form, Item, Row, Sheet};

pub fn reasons(sheet: &Sheet, names: &Names, collected: &[u16]) -> Vec<Option<Reason>> {
    let mut reasons = vec![None; 256];
    let mut insert = |name: u16, reason: Reason| {
        if names.cxx_not_shared(name) {
            reasons[name as usize] = Some(reason);
        }
    };
    for &row in collected {
        if let Row::SliceRef { flags, inner } = sheet.rows[row as usize]
            && flags & 1 != 0
            && let Some(name) = plain(sheet, inner)
        {
            insert(name, Reason::Row(row));
        }
    }
    for (number, item) in sheet.items.iter().enumerate() {
        if let Item::CxxFunction(function) | Item::RustFunction(function) = item
            && let Form::Method { name, flags } = function.form
            && flags & 1 != 0
            && flags & 2 == 0
        {
            insert(name, Reason::Item(number as u8));
        }
    }
    for &row in collected {
        if let Row::Ref { flags, inner } = sheet.rows[row as usize]
            && flags & 1 != 0
            && flags & 2 == 0
            && let Some(name) = plain(sheet, inner)
        {
            insert(name, Reason::Row(row));
        }
    }
    reasons
}
