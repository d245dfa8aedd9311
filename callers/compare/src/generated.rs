//! Sheets to compare on: how many of a profile, and damage to a sheet.

use oracle::generate::{Profile, Rng};

/// One to three pairs replaced, or bytes taken off or added.
pub fn damage(mut sheet: Vec<u8>, rng: &mut Rng) -> Vec<u8> {
    for _ in 0..rng.from_to(1, 3) {
        if sheet.len() < 2 {
            break;
        }
        let at = rng.below(sheet.len() - 1) & !1;
        let old = u16::from_le_bytes([sheet[at], sheet[at + 1]]);
        let new = match rng.below(4) {
            0 => rng.below(16) as u16,
            1 => rng.next() as u16,
            2 => old.wrapping_add(rng.below(5) as u16).wrapping_sub(2),
            _ => rng.below(256) as u16,
        };
        sheet[at..at + 2].copy_from_slice(&new.to_le_bytes());
    }
    if rng.one_in(20) {
        let length = rng.below(sheet.len() + 4);
        sheet.resize(length, 0);
    }
    sheet
}

/// The profiles of big sheets get a tenth of the count.
pub fn count(profile: &Profile, count: u64) -> u64 {
    const BIG: [&str; 8] = ["medium", "nests", "chains", "items", "rows", "full-many", "full-none", "full-mixed"];
    if BIG.contains(&profile.name) { count / 10 } else { count }
}
