//! Small sheets made full.
//!
//! A full sheet is taken as it is. From any other accepted one, sheets of the same profile (other seeds and numbers) are put into one,
//! as long as rows, items and tree nodes stay few; names stay as they are, so what the sheets declare meets. Then the structs get more
//! fields, and structs are added where that is not enough, until the sheet has exactly 32,768 bytes. The new fields of a struct are, drawn
//! for each sheet, either fields that it has already or any rows; of these only rows that unfold to at most `LIGHT` nodes, since a deep
//! row in each field would have the Rust walk millions of nodes, and such sheets would decide every sum. Items that have no place are left
//! out; in half of the sheets the items are shuffled.

use oracle::generate::{Draft, Profile, Rng};
use oracle::reader;
use oracle::sheet::{MAX_BYTES, MAX_FIELDS, MAX_ITEMS, NONE};

const LIGHT: u64 = 16;
/// Sheets that are put into one, and how far.
const TOGETHER: u64 = 12;
const ROWS: usize = 500;
const ITEMS: usize = 60;
const NODES: u64 = 5_000;
/// A struct's bytes with its offset, without fields.
const BARE: usize = 12;
const FIELDS: usize = MAX_FIELDS as usize;

/// None where the profile's sheet is refused.
pub fn full(profile: &Profile, seed: u64, number: u64) -> Option<Vec<u8>> {
    let first = profile.sheet(seed, number);
    reader::read(&first).ok()?;
    if first.len() == MAX_BYTES {
        return Some(first);
    }
    let rng = &mut Rng::new(seed ^ 0x5EED, number);
    let mut draft = together(profile, seed, number);
    if draft.rows.is_empty() {
        draft.name(2);
    }
    fill(&mut draft, rng);
    if rng.one_in(2) {
        for index in (1..draft.items.len()).rev() {
            draft.items.swap(index, rng.below(index + 1));
        }
    }
    Some(draft.bytes())
}

/// The sheet of this number, and others after it.
fn together(profile: &Profile, seed: u64, number: u64) -> Draft {
    let mut draft = Draft::from_bytes(&profile.sheet(seed, number));
    for more in 1..TOGETHER {
        let bytes = profile.sheet(seed + more, number + 37 * more);
        if reader::read(&bytes).is_err() {
            continue;
        }
        let mut larger = draft.clone();
        put(&mut larger, &Draft::from_bytes(&bytes));
        if larger.rows.len() > ROWS || larger.items.len() > ITEMS || sizes(&larger).iter().sum::<u64>() > NODES {
            break;
        }
        draft = larger;
    }
    draft
}

/// Adds the rows of another sheet that are new, and its items.
fn put(draft: &mut Draft, other: &Draft) {
    let mut rows: Vec<u16> = Vec::new();
    let moved = |body: &[u16], places: Vec<usize>, rows: &[u16]| {
        let mut body = body.to_vec();
        for place in places {
            body[place] = if body[place] == NONE { NONE } else { rows[body[place] as usize] };
        }
        body
    };
    for row in &other.rows {
        let row = moved(row, parts(row), &rows);
        rows.push(draft.row(&row));
    }
    for item in &other.items {
        draft.items.push(moved(item, uses(item), &rows));
    }
}

/// Where a row's body has row numbers (docs/SHEET.md).
fn parts(row: &[u16]) -> Vec<usize> {
    match row[0] {
        1..=6 => vec![1],
        7 | 8 | 10 | 11 => vec![2],
        12 => [2].into_iter().chain(4..row.len()).collect(),
        _ => Vec::new(),
    }
}

/// Where an item's body has row numbers.
pub fn uses(item: &[u16]) -> Vec<usize> {
    match item[0] {
        1 => (counted(item) + 1..item.len()).collect(),
        2 => vec![item.len() - 4],
        5 | 6 => {
            let form = 4 + item[3] as usize;
            let ret = form + 1 + item[form] as usize;
            [ret].into_iter().chain(ret + 2..item.len()).collect()
        }
        8 => vec![1],
        _ => Vec::new(),
    }
}

/// Where a struct's body has the number of its fields.
fn counted(item: &[u16]) -> usize {
    let derives = 3 + item[2] as usize;
    derives + 1 + item[derives] as usize
}

fn sizes(draft: &Draft) -> Vec<u64> {
    reader::read(&draft.bytes()).map_or(Vec::new(), |sheet| sheet.tree_sizes())
}

/// The fields that all structs have room for.
pub fn room(draft: &Draft) -> usize {
    draft.items.iter().filter(|item| item[0] == 1).map(|item| FIELDS - item[counted(item)] as usize).sum()
}

/// Structs with room for what is missing, and as many fields as that takes.
fn fill(draft: &mut Draft, rng: &mut Rng) {
    // the first row is one of them
    let sizes = sizes(draft);
    let light: Vec<u16> = (0..draft.rows.len() as u16).filter(|&row| sizes[row as usize] <= LIGHT).collect();
    while draft.len() + 2 * room(draft) + (MAX_ITEMS - draft.items.len()) * (BARE + 2 * FIELDS) < MAX_BYTES {
        let others: Vec<usize> = (0..draft.items.len()).filter(|&index| draft.items[index][0] != 1).collect();
        draft.items.remove(rng.pick(&others));
    }
    while draft.len() + 2 * room(draft) < MAX_BYTES {
        let derives: Vec<u16> = (0..if rng.one_in(4) { rng.from_to(1, 4) } else { 0 }).map(|_| rng.below(15) as u16).collect();
        draft.item(&[&[1, rng.from_to(24, 255) as u16, 0, derives.len() as u16], &derives, &[0]]);
    }
    let own = rng.one_in(2);
    widen(draft, MAX_BYTES, rng, |rng, _, fields| if own && !fields.is_empty() { rng.pick(fields) } else { rng.pick(&light) });
}

/// Adds fields to structs drawn at random until the sheet has so many bytes. `field` gives the row of one, from the number of the struct
/// among the structs and the fields that it has.
pub fn widen(draft: &mut Draft, bytes: usize, rng: &mut Rng, mut field: impl FnMut(&mut Rng, usize, &[u16]) -> u16) {
    let structs: Vec<usize> = (0..draft.items.len()).filter(|&index| draft.items[index][0] == 1).collect();
    let mut open: Vec<usize> = (0..structs.len()).collect();
    let mut missing = bytes.saturating_sub(draft.len()) / 2;
    while missing > 0 {
        let chosen = rng.below(open.len());
        let item = &mut draft.items[structs[open[chosen]]];
        let count = counted(item);
        if item[count] as usize == FIELDS {
            open.swap_remove(chosen);
            continue;
        }
        let row = field(rng, open[chosen], &item[count + 1..]);
        item.push(row);
        item[count] += 1;
        missing -= 1;
    }
}
