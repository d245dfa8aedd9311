//! The four groups of full sheets.

use crate::enlarge;
use crate::measure::{Bench, Sample};
use oracle::generate::{PROFILES, Profile};
use oracle::sheet::MAX_BYTES;
use oracle::{judge, reader};
use std::collections::HashSet;

/// Of the three profiles of full sheets, and of the sheets drawn from all.
pub const SEED: u64 = 7;
const SEED_ALL: u64 = 8;
const FULL: [&str; 3] = ["full-none", "full-mixed", "full-many"];

pub struct Group {
    pub name: &'static str,
    pub samples: Vec<Sample>,
    pub passed: Passed,
}

/// Sheets that were drawn and not taken.
#[derive(Default)]
pub struct Passed {
    pub equal: usize,
    /// Refused, not full, or more than the oracle judges.
    pub unfit: usize,
}

/// Accepted, of 32,768 bytes, and within the limit for the oracle.
fn fits(bytes: &[u8]) -> bool {
    bytes.len() == MAX_BYTES && reader::read(bytes).is_ok_and(|sheet| !judge::too_large(&sheet))
}

/// Sheet `number` of a group with its label. The group `all` takes all profiles in turn; a sheet that is not full is enlarged.
fn draw(group: &str, number: u64) -> (String, Option<Vec<u8>>) {
    let (profile, seed, number) = match Profile::find(group) {
        Some(profile) => (profile, SEED, number),
        None => {
            let profiles = PROFILES.len() as u64;
            (&PROFILES[(number % profiles) as usize], SEED_ALL, number / profiles)
        }
    };
    (format!("{} {number}", profile.name), enlarge::full(profile, seed, number))
}

fn group(name: &'static str, count: usize, seen: &mut HashSet<Vec<u8>>, bench: &mut Bench) -> Result<Group, String> {
    let (mut samples, mut passed) = (Vec::new(), Passed::default());
    let mut number = 0;
    while samples.len() < count {
        let (label, sheet) = draw(name, number);
        number += 1;
        let Some(sheet) = sheet.filter(|sheet| fits(sheet)) else {
            passed.unfit += 1;
            continue;
        };
        if seen.contains(&sheet) {
            passed.equal += 1;
            continue;
        }
        samples.push(bench.sheet(label, &sheet)?);
        seen.insert(sheet);
    }
    Ok(Group { name, samples, passed })
}

/// So many sheets of each group; no two of all of them are equal.
pub fn measured(bench: &mut Bench, count: usize) -> Result<Vec<Group>, String> {
    let mut seen = HashSet::new();
    FULL.into_iter().chain(["all"]).map(|name| group(name, count, &mut seen, bench)).collect()
}
