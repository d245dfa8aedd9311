//! Sheets of growing size, like those of the three profiles of full sheets.

use crate::enlarge::{room, uses, widen};
use crate::figures::mean;
use crate::measure::{Bench, Sample};
use crate::sheets::SEED;
use oracle::generate::{Draft, Profile, Rng};
use oracle::sheet::MAX_BYTES;

const KIB: [usize; 6] = [1, 2, 4, 8, 16, 32];
const SHEETS: u64 = 50;

/// Makes a sheet from a number, of so many bytes.
type Make = fn(&mut Rng, u64, usize) -> Draft;

const PROFILES: [(&str, Make); 3] = [("none", none), ("mixed", mixed), ("many", many)];

/// The sheets of one profile and one size.
pub struct Step {
    pub kib: usize,
    pub samples: Vec<Sample>,
}

impl Step {
    /// Mean of the best times, in µs.
    pub fn rust(&self) -> f64 {
        mean(&self.samples, crate::figures::rust_best)
    }

    pub fn port(&self) -> f64 {
        mean(&self.samples, |sample| sample.port[1].best)
    }
}

pub struct Growth {
    pub name: &'static str,
    pub steps: Vec<Step>,
}

pub fn measured(bench: &mut Bench) -> Result<Vec<Growth>, String> {
    let mut all = Vec::new();
    for (name, make) in PROFILES {
        let mut steps = Vec::new();
        for kib in KIB {
            let mut sheet = |number| {
                let draft = make(&mut Rng::new(SEED ^ kib as u64, number), number, kib << 10);
                let bytes = draft.bytes();
                assert!(bytes.len() == kib << 10, "a sheet of the size that is asked for");
                bench.sheet(format!("{name} of {kib} KiB, {number}"), &bytes)
            };
            steps.push(Step { kib, samples: (0..SHEETS).map(&mut sheet).collect::<Result<_, _>>()? });
        }
        all.push(Growth { name, steps });
    }
    Ok(all)
}

/// As `full-none`: the rows for so many structs, the structs without fields, then fields that nothing is said about.
fn none(rng: &mut Rng, _: u64, bytes: usize) -> Draft {
    let mut count = 1;
    let (mut draft, rows, structs) = loop {
        let made = bare(count);
        if made.0.len() + 2 * room(&made.0) >= bytes {
            break made;
        }
        count += 1;
    };
    let backward = rng.one_in(2);
    widen(&mut draft, bytes, rng, |rng, number, _| match rng.below(4) {
        0 if backward && number > 0 => structs[rng.below(number)],
        0 if !backward && number + 1 < count => structs[rng.from_to(number + 1, count - 1)],
        _ => rng.pick(&rows),
    });
    draft
}

/// Atoms, arrays of atoms, references and boxes of the first structs; and the structs.
fn bare(count: usize) -> (Draft, Vec<u16>, Vec<u16>) {
    let mut draft = Draft::new();
    let mut rows: Vec<u16> = (0..14).map(|name| draft.name(name)).collect();
    let names = 24..24 + count as u16;
    let structs: Vec<u16> = names.clone().map(|name| draft.name(name)).collect();
    for index in 0..8 {
        rows.push(draft.row(&[11, index, index]));
        if let Some(&strct) = structs.get(index as usize) {
            rows.push(draft.row(&[7, 1, strct]));
            rows.push(draft.row(&[1, strct]));
        }
    }
    for name in names {
        draft.strct(name, &[]);
    }
    (draft, rows, structs)
}

/// As `full-mixed`.
fn mixed(rng: &mut Rng, number: u64, bytes: usize) -> Draft {
    cut("full-mixed", rng, number, bytes)
}

/// As `full-many`, without its one chain.
fn many(rng: &mut Rng, number: u64, bytes: usize) -> Draft {
    cut("full-many", rng, number, bytes)
}

/// A full sheet made smaller: its first rows and its first items that use these, in the proportion of the sizes but some at least; then
/// its structs, with fields drawn from all its fields.
fn cut(profile: &str, rng: &mut Rng, number: u64, bytes: usize) -> Draft {
    let profile = Profile::find(profile).expect("a profile");
    let whole = |number| Draft::from_bytes(&profile.sheet(SEED, number));
    // the chain of full-many is the one sheet with hundreds of rows
    let whole = (number * 16..).map(whole).find(|draft| draft.rows.len() < 200).expect("a sheet");
    let part = |count: usize, least: usize| (count * bytes / MAX_BYTES).max(least).min(count);
    let rows = part(whole.rows.len(), 14);
    let wide = |item: &Vec<u16>| item[0] == 1 && item.len() > 60;
    let before = whole.items.iter().position(wide).expect("a struct");
    let (first, structs) = whole.items.split_at(before);
    let known = |item: &&Vec<u16>| uses(item).into_iter().all(|place| item[place] == u16::MAX || usize::from(item[place]) < rows);
    let items = first.iter().take(part(first.len(), 3)).filter(known).cloned().collect();
    let mut draft = Draft { rows: whole.rows[..rows].to_vec(), items };
    for strct in structs {
        if draft.len() + 2 * room(&draft) >= bytes {
            break;
        }
        draft.strct(strct[1], &[]);
    }
    let fields: Vec<u16> = structs.iter().flat_map(|item| uses(item).into_iter().map(|place| item[place])).collect();
    widen(&mut draft, bytes, rng, |rng, _, _| rng.pick(&fields) % rows as u16);
    draft
}
