//! Where the book's forbidden opaque targets and the source part, in words.

use oracle::book::{self, Shape};
use std::collections::BTreeMap;
use std::sync::LazyLock;

static SHAPES: LazyLock<BTreeMap<Shape, Vec<u16>>> = LazyLock::new(book::shapes);

const SLICES: [usize; 2] = [6, 7];
const ARRAY: usize = 8;
const CXX_AND_RUST: usize = 0b01100;
const RUST: usize = 0b01000;

fn parting() -> impl Iterator<Item = (&'static Shape, &'static Vec<u16>)> {
    SHAPES.iter().filter(|(shape, _)| shape.parts())
}

/// What the book forbids stands only in slices of a name that is declared as
/// a C++ type and as a Rust type, which is a duplicate.
#[test]
fn source_lets_stand() {
    for (shape, _) in parting().filter(|(shape, _)| shape.book_forbids) {
        assert!(SLICES.contains(&shape.target));
        assert_eq!(shape.declared, CXX_AND_RUST);
        assert!(shape.duplicate);
    }
}

/// The messages about opaque targets of Box and Vec never say more than the
/// book; those of the four C++ kinds do for a Rust type that is also a
/// struct, enum or alias, which is a duplicate.
#[test]
fn source_refuses_more() {
    for (shape, _) in parting() {
        if shape.book_forbids || !shape.opaque_message() {
            continue;
        }
        assert!(shape.target >= 2);
        if !SLICES.contains(&shape.target) && shape.target != ARRAY {
            assert!(shape.declared & RUST != 0 && shape.duplicate);
        }
    }
}

/// The figures of the list that `oracle --book` prints.
#[test]
fn counts() {
    let count = |test: &dyn Fn(&Shape) -> bool| -> usize {
        let parting = parting().filter(|(shape, _)| test(shape));
        parting.map(|(_, names)| names.len()).sum()
    };
    assert_eq!(SHAPES.values().map(Vec::len).sum::<usize>(), 4_928);
    assert_eq!(count(&|shape| shape.book_forbids), 34);
    assert_eq!(count(&|shape| !shape.book_forbids && shape.opaque_message()), 1_268);
    assert_eq!(count(&|shape| !shape.book_forbids && !shape.opaque_message()), 862);
}
