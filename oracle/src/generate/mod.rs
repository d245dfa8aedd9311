//! A seeded generator of sheets, by profiles.

mod broken;
mod draft;
mod full;
mod graphs;
mod handles;
mod kinds;
pub mod opaque;
mod random;
mod rng;

pub use draft::Draft;
pub use rng::Rng;

/// Makes the sheet of a number. Profiles that list cases take the number as
/// the case; the others draw from the generator alone.
type Make = fn(&mut Rng, u64) -> Vec<u8>;

pub struct Profile {
    pub name: &'static str,
    pub about: &'static str,
    make: Make,
}

const fn profile(name: &'static str, about: &'static str, make: Make) -> Profile {
    Profile { name, about, make }
}

pub const PROFILES: [Profile; 27] = [
    profile("tiny", "up to 6 rows and 4 items, names 0 to 30", random::tiny),
    profile("small", "up to 24 rows and 12 items, names 0 to 30", random::small),
    profile("medium", "up to 80 rows and 40 items, all names", random::medium),
    profile("reserved", "items that bear atoms, reserved names and Self", random::reserved),
    profile("few", "many items over three names", random::few),
    profile("pairs", "case by case: every pair of kinds that declare one name", kinds::pairs),
    profile("triples", "three declarers of one name and uses of it", kinds::triples),
    profile("targets", "every kind of row over every kind of name", kinds::targets),
    profile("opaque", "case by case: declarers of a name, rows over it", opaque::opaque),
    profile("functions", "receivers, self types, lifetimes, &mut returns", kinds::functions),
    profile("derives", "derives, lifetimes, bounds, enums", kinds::derives),
    profile("cycles", "structs in cycles of length 1, 2 and more", graphs::cycles),
    profile("chains", "chains and rings of up to 255 structs", graphs::chains),
    profile("improper", "structs over references, boxes and aliases", graphs::improper),
    profile("nests", "deep rows, up to 10,000 tree nodes", graphs::nests),
    profile("items", "255 items", full::items),
    profile("rows", "1,024 rows", full::rows),
    profile("full-many", "32,768 bytes with thousands of records", full::many),
    profile("full-none", "32,768 bytes without a record", full::none),
    profile("full-mixed", "32,768 bytes at random", full::mixed),
    profile("limits", "case by case: each limit, and one more", broken::limits),
    profile("cuts", "case by case: a good sheet cut at each byte", broken::cuts),
    profile("offsets", "case by case: each offset wrong, bytes left over", broken::offsets),
    profile("values", "case by case: each pair replaced by bounds", broken::values),
    profile("damaged", "good sheets with random damage", broken::damaged),
    profile("changed", "good sheets with pairs of their bodies changed", broken::changed),
    profile("handles", "C++ names, and slices, references and methods over them", handles::handles),
];

impl Profile {
    pub fn find(name: &str) -> Option<&'static Profile> {
        PROFILES.iter().find(|profile| profile.name == name)
    }

    pub fn sheet(&self, seed: u64, number: u64) -> Vec<u8> {
        (self.make)(&mut Rng::new(seed, number), number)
    }
}
