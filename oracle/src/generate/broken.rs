//! Sheets to be refused: limits, cuts, wrong offsets and values, damage.

use super::draft::{Draft, from_pairs, list};
use super::rng::Rng;
use super::{PROFILES, Profile};
use crate::sheet::NONE;

/// A good sheet with every kind of row and item, lists with entries.
fn specimen() -> Draft {
    let mut draft = Draft::new();
    let byte = draft.name(2);
    let own = draft.name(24);
    for kind in 1..=6 {
        draft.row(&[kind, own]);
    }
    let reference = draft.row(&[7, 1, own]);
    draft.row(&[8, 1, byte]);
    draft.row(&[9]);
    draft.row(&[10, 1, own]);
    draft.row(&[11, 300, byte]);
    draft.row(&[12, 3, own, 2, byte, own]);
    draft.row(&[12, 0, NONE, 0]);
    draft.row(&[13]);
    draft.item(&[&[0]]);
    draft.item(&[&[1, 24, 2, 1, 2, 2, 0, 14, 2, byte, reference]]);
    draft.item(&[&[2, 25, 1, 0, 1, 3, byte, 1, 3, 1]]);
    draft.item(&[&[3, 26, 1, 3, 1, 0, 3]]);
    draft.item(&[&[4, 27, 0, 1, 14, 1]]);
    draft.item(&[&[5, 28, 7, 1, 4, 2, 24, 3, reference, 2, own, byte]]);
    draft.item(&[&[6, 29, 3, 0, 1, 24, NONE, 1, byte]]);
    draft.item(&[&[5, 30, 0, 0, 0, NONE, 0]]);
    draft.item(&[&[7, 31, 1, 9, 1, 2]]);
    draft.item(&[&[8, 2, 1, 1, 5]]);
    draft
}

pub fn cuts(_: &mut Rng, number: u64) -> Vec<u8> {
    let mut bytes = specimen().bytes();
    bytes.truncate(number as usize % bytes.len());
    bytes
}

/// Each offset made wrong in seven ways; then bytes left over.
pub fn offsets(_: &mut Rng, number: u64) -> Vec<u8> {
    let draft = specimen();
    let mut bytes = draft.bytes();
    let bodies = draft.rows.len() + draft.items.len();
    let case = number as usize % (7 * bodies + 8);
    if case >= 7 * bodies {
        let left = case - 7 * bodies;
        let mut bytes = if left < 4 { bytes } else { from_pairs(&[0, 0]) };
        bytes.extend(&[0, 1, 0, 0][..left % 4 + 1]);
        return bytes;
    }
    let place = 4 + 2 * (case / 7);
    let right = u16::from_le_bytes([bytes[place], bytes[place + 1]]);
    let length = bytes.len() as u16;
    let wrong = match case % 7 {
        0 => right - 1,
        1 => right + 1,
        2 => right + 2,
        3 => right - 2,
        4 => 0,
        5 => length,
        _ => NONE,
    };
    // The first body may be the last place that is right for none of these.
    let wrong = if wrong == right { right ^ 1 } else { wrong };
    bytes[place..place + 2].copy_from_slice(&wrong.to_le_bytes());
    bytes
}

const BOUNDS: [u16; 24] = [
    0, 1, 2, 3, 4, 5, 7, 8, 9, 13, 14, 15, 16, 17, 24, 63, 64, 65, 255, 256, 1_024, 1_025, 32_768,
    NONE,
];

/// Each pair of the specimen replaced by each bound.
pub fn values(_: &mut Rng, number: u64) -> Vec<u8> {
    let mut bytes = specimen().bytes();
    let case = number as usize % (bytes.len() / 2 * BOUNDS.len());
    let place = case / BOUNDS.len() * 2;
    let value = BOUNDS[case % BOUNDS.len()];
    bytes[place..place + 2].copy_from_slice(&value.to_le_bytes());
    bytes
}

pub const LIMIT_CASES: u64 = 40;

/// Each limit at its end, then one more. Even cases are accepted.
pub fn limits(_: &mut Rng, number: u64) -> Vec<u8> {
    let case = number % LIMIT_CASES;
    let more = (case % 2) as usize;
    let mut draft = Draft::new();
    let byte = draft.name(2);
    let copies = |count: usize, entry: u16| list(&vec![entry; count + more]);
    match case / 2 {
        0 => return whole(32_768 + more),
        1 => return from_pairs(&[0, 0])[..4 - more].to_vec(),
        2 => return many_rows(1_024 + more),
        3 => return vec_items(255 + more),
        4 => draft.item(&[&[1, 24, 0, 0], &copies(64, byte)]),
        5 => draft.item(&[&[1, 24, 0], &copies(16, 1), &[0]]),
        6 => draft.item(&[&[1, 24], &copies(8, 1), &[0, 0]]),
        7 => draft.item(&[&[5, 24, 0, 0, 0, NONE], &copies(16, byte)]),
        8 => drop(draft.row(&[&[12, 0, NONE][..], &copies(16, byte)].concat())),
        9 => draft.item(&[&[2, 24, 0, 0, byte, 0, 255 + more as u16, 0]]),
        10 => draft.item(&[&[2, 24, 0, 0, byte, 0, 5, 5 + more as u16]]),
        11 => draft.item(&[&[7, 255 + more as u16, 0, 0]]),
        12 => draft.item(&[&[7, 24, 1, 255 + more as u16, 0]]),
        13 => draft.item(&[&[7, 24, 0, 1, 14 + more as u16]]),
        14 => draft.item(&[&[6, 24, 3 + more as u16, 0, 0, NONE, 0]]),
        15 => draft.item(&[&[5, 24, 7 + more as u16, 0, 0, NONE, 0]]),
        16 => draft.item(&[&[8, byte, 1 + more as u16, 0]]),
        17 => draft.item(&[&[8, byte + more as u16, 0, 0]]),
        18 => drop(draft.row(&[10, 1 + more as u16, byte])),
        _ => drop(draft.row(&[7, 3 + more as u16, byte])),
    }
    draft.bytes()
}

/// A good sheet of 32,768 bytes, with zeros after it.
fn whole(length: usize) -> Vec<u8> {
    let profile = Profile::find("full-none").expect("a profile");
    let mut bytes = profile.sheet(1, 1);
    bytes.resize(length, 0);
    bytes
}

fn many_rows(count: usize) -> Vec<u8> {
    let mut draft = Draft::new();
    let byte = draft.name(2);
    for length in 1..count {
        draft.row(&[11, length as u16, byte]);
    }
    draft.bytes()
}

fn vec_items(count: usize) -> Vec<u8> {
    let mut draft = Draft::new();
    for _ in 0..count {
        draft.item(&[&[0]]);
    }
    draft.bytes()
}

/// Profiles whose sheets are small and good.
const GOOD: usize = 15;

/// A good sheet with one to four changes.
pub fn damaged(rng: &mut Rng, number: u64) -> Vec<u8> {
    let good = &PROFILES[rng.below(GOOD)];
    let mut bytes = good.sheet(rng.next(), number);
    for _ in 0..rng.from_to(1, 4) {
        let place = rng.below(bytes.len());
        match rng.below(6) {
            0 => bytes[place] ^= 1 << rng.below(8),
            1 => bytes[place] = rng.next() as u8,
            2 => set_pair(&mut bytes, place, rng.pick(&BOUNDS)),
            3 => set_pair(&mut bytes, place, rng.below(32) as u16),
            4 if rng.one_in(4) => bytes.truncate(place),
            5 if rng.one_in(4) => bytes.insert(place, rng.next() as u8),
            _ => set_pair(&mut bytes, place, rng.below(4) as u16),
        }
        if bytes.is_empty() {
            break;
        }
    }
    bytes
}

/// A good sheet with one to three pairs of its bodies changed, the contents
/// right: one in four is accepted.
pub fn changed(rng: &mut Rng, number: u64) -> Vec<u8> {
    let good = &PROFILES[rng.below(GOOD)];
    let mut draft = Draft::from_bytes(&good.sheet(rng.next(), number));
    for _ in 0..rng.from_to(1, 3) {
        let bodies = draft.rows.iter_mut().chain(&mut draft.items);
        let mut pairs: Vec<&mut u16> = bodies.flatten().collect();
        if pairs.is_empty() {
            break;
        }
        let place = rng.below(pairs.len());
        *pairs[place] = match rng.below(4) {
            0 => *pairs[place] ^ 1,
            1 => (*pairs[place]).wrapping_add(1),
            2 => (*pairs[place]).wrapping_sub(1),
            _ => rng.below(28) as u16,
        };
    }
    draft.bytes()
}

fn set_pair(bytes: &mut [u8], place: usize, value: u16) {
    let place = place / 2 * 2;
    if place + 2 <= bytes.len() {
        bytes[place..place + 2].copy_from_slice(&value.to_le_bytes());
    }
}
