//! A run of fixed seeds hits every message and every refusal.

use oracle::coverage::Coverage;
use oracle::generate::PROFILES;
use oracle::judge::{Outcome, judge};
use oracle::reader;

#[test]
fn every_message_and_refusal() {
    let mut coverage = Coverage::default();
    for profile in PROFILES.iter().filter(|profile| !profile.name.starts_with("full")) {
        for number in 0..60 {
            coverage.add(&profile.sheet(7, number));
        }
    }
    assert_eq!(coverage.missing_messages(), []);
    assert_eq!(coverage.missing_refusals(), []);
    assert!(!coverage.unpin.contains(&0), "{:?}", coverage.unpin);
    assert_eq!(coverage.too_large, 0);
    // `describe`'s branches that can occur, at each of its three messages.
    for message in [32, 49, 51] {
        let hit = coverage.details.keys().filter(|(of, _)| *of == message);
        let hit: Vec<u16> = hit.map(|(_, detail)| *detail).collect();
        assert_eq!(hit, [1, 2, 3, 4, 5, 6, 17, 20, 21]);
    }
}

/// How many records an accepted sheet has.
fn records(sheet: &[u8]) -> Option<usize> {
    match judge(sheet) {
        Outcome::Accepted(answer) => Some(answer.records.len()),
        _ => None,
    }
}

#[test]
fn full_sheets() {
    for (name, least, most) in
        [("full-none", 0, 0), ("full-many", 10_000, 30_000), ("full-mixed", 1_000, 10_000)]
    {
        let profile = oracle::generate::Profile::find(name).expect("a profile");
        for number in 0..3 {
            let sheet = profile.sheet(7, number);
            assert_eq!(sheet.len(), 32_768);
            let records = records(&sheet).expect("an accepted sheet");
            assert!(least <= records && records <= most, "{name} {number}: {records}");
        }
    }
}

#[test]
fn limits_come_in_twos() {
    let profile = oracle::generate::Profile::find("limits").expect("a profile");
    for number in 0..40 {
        let refused = reader::read(&profile.sheet(1, number)).is_err();
        assert_eq!(refused, number % 2 == 1, "case {number}");
    }
}

/// The same seed gives the same sheet, another seed another one.
#[test]
fn seeds() {
    let profile = oracle::generate::Profile::find("small").expect("a profile");
    assert_eq!(profile.sheet(3, 5), profile.sheet(3, 5));
    assert_ne!(profile.sheet(3, 5), profile.sheet(4, 5));
}
