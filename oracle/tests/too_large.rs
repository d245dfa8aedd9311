//! Sheets are judged up to 10,000 tree nodes, the sum over all rows.

use oracle::generate::Draft;
use oracle::judge::judge;
use oracle::print;

fn first_line(draft: &Draft) -> String {
    let report = print::report(&judge(&draft.bytes()));
    report.lines().next().unwrap_or_default().to_owned()
}

/// A row of references 140 deep has 140 · 141 / 2 nodes, with 130 names.
#[test]
fn nodes_are_counted_over_all_rows() {
    let mut draft = Draft::new();
    let mut row = draft.name(0);
    for _ in 1..140 {
        row = draft.row(&[8, 0, row]);
    }
    for name in 1..=130 {
        draft.name(name);
    }
    assert_eq!(first_line(&draft), "accepted 0");
    draft.name(131);
    assert_eq!(first_line(&draft), "too large");
}

/// Function pointers of sixteen arguments, one over the other.
#[test]
fn unfolding_does_not_take_for_ever() {
    let mut draft = Draft::new();
    let mut row = draft.name(2);
    for _ in 0..700 {
        row = draft.row(&[&[12, 0, row, 16][..], &[row; 16]].concat());
    }
    draft.function(24, &[row]);
    assert_eq!(first_line(&draft), "too large");
}
