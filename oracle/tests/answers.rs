//! testdata/answers.bin is what `oracle --answers` writes, and what it holds.

use oracle::coverage::Coverage;
use oracle::judge::{Outcome, Reason, judge};
use oracle::{stored, unpin};

const PATH: &str = concat!(env!("CARGO_MANIFEST_DIR"), "/../testdata/answers.bin");

#[test]
fn file_is_up_to_date() {
    let stored = std::fs::read(PATH).expect("testdata/answers.bin");
    assert!(stored == stored::answers(), "write it anew: oracle --answers");
    assert!(stored.len() < 3_000_000);
}

#[test]
fn file_has_everything() {
    let sheets = stored::sheets();
    assert!(sheets.len() >= 400);
    let mut coverage = Coverage::default();
    sheets.iter().for_each(|sheet| coverage.add(sheet));
    assert_eq!(coverage.missing_messages(), []);
    assert_eq!(coverage.missing_refusals(), []);
    assert!(coverage.unpin.iter().all(|&names| names >= 5), "{:?}", coverage.unpin);
    assert_eq!(coverage.too_large, 0);
    let small = sheets.iter().filter(|sheet| sheet.len() < 600).count();
    let full = sheets.iter().filter(|sheet| sheet.len() == 32_768).count();
    assert!(small * 10 > sheets.len() * 9 && full >= 5);
}

/// Of names that an alias bears the reasons to be Unpin are the Rust's; of
/// others the Rust has none.
#[test]
fn reasons_are_those_of_the_rust() {
    for (number, sheet) in stored::sheets().iter().enumerate() {
        if let Outcome::Accepted(answer) = judge(sheet) {
            assert_eq!(answer.required_unpin, unpin::of_aliases(&answer), "sheet {number}");
        }
    }
}

#[test]
fn reasons_as_numbers() {
    let rows = [0, 1, 1_023].map(|row| unpin::number(Some(Reason::Row(row))));
    let items = [0, 1, 254].map(|item| unpin::number(Some(Reason::Item(item))));
    assert_eq!((unpin::number(None), rows, items), (0, [1, 2, 1_024], [32_768, 32_769, 33_022]));
}
