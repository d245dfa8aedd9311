//! What is said of refused sheets, for each kind of fault: docs/SHEET.md has most of them.

use tool::sheet::reader::read;

/// Pairs, bytes 0 after them, the refusal, and what is said.
const FAULTS: [(&str, usize, (u8, usize), &str); 32] = [
    ("", 32_769, (2, 0), "the sheet: expected at most 32768 bytes; it has more"),
    ("", 3, (3, 0), "the sheet: expected at least 4 bytes, T and A; it has 3"),
    ("1025 256", 0, (4, 0), "T, the number of rows: found 1025, expected at most 1024"),
    ("0 256", 0, (4, 2), "A, the number of items: found 256, expected at most 255"),
    ("0 1", 0, (5, 0), "the contents of 0 rows and 1 item: expected 6 bytes, for T, A and 1 offset; the sheet has 4"),
    ("1 0 8", 0, (5, 4), "the offset of row 0: found 8, expected 6, where the contents end"),
    ("1 1 8 11 9", 0, (5, 6), "the offset of item 0: found 11, expected 10, where the body before ends"),
    ("1 0 6", 1, (5, 7), "row 0, kind: expected a kind of row, 0 (Ident) to 13 (Void); the sheet ends before"),
    ("0 0", 1, (5, 4), "after the last body: expected the end of the sheet, and 1 byte more"),
    ("0 1 6 99", 0, (6, 6), "item 0, kind: found 99, expected a kind of item, 0 (Include) to 8 (Impl)"),
    ("1 0 6 3 0", 0, (7, 8), "row 0 (UniquePtr), inner row: found 0, expected a row before row 0, and there is none"),
    ("2 0 8 10 9 7 4", 0, (6, 12), "row 1 (Ref), flags: found 4, expected 0 or a sum of 1 (mutable), 2 (pinned)"),
    ("2 0 8 10 9 11 5 1", 0, (7, 14), "row 1 (Array), inner row: found 1, expected a row before row 1"),
    ("1 0 6 12 0 65535 17", 0, (6, 12), "row 0 (Fn), number of arguments: found 17, expected at most 16 arguments"),
    ("2 0 8 10 9 12 0 65535 2 0 1", 0, (7, 20), "row 1 (Fn), argument 1: found 1, expected a row before row 1"),
    ("2 0 8 10 9 9", 0, (8, 10), "row 1 (Str): expected a type that is in no row before; row 0 is the same"),
    ("0 1 6 1 24 9", 0, (6, 10), "item 0 (Struct), number of lifetimes: found 9, expected at most 8 lifetimes"),
    ("0 1 6 1 24 2 255", 0, (5, 14), "item 0 (Struct), lifetime 1: expected a lifetime, 0 ('static) to 255; the sheet ends before"),
    ("0 1 6 1 24 0 1 15", 0, (6, 14), "item 0 (Struct), derive 0: found 15, expected a derive, 0 (Clone) to 14 (ExternType)"),
    ("0 1 6 1 24 0 0 1 0", 0, (7, 16), "item 0 (Struct), field 0: found 0, expected a row, and the sheet has none"),
    ("1 1 8 10 9 8 65535 0 0", 0, (7, 12), "item 0 (Impl), row: found 65535, expected row 0, the only one"),
    ("2 1 10 12 14 9 13 8 2 0 0", 0, (7, 16), "item 0 (Impl), row: found 2, expected a row, 0 to 1"),
    (
        "1 1 8 10 9 5 24 0 0 0 65534 0",
        0,
        (7, 20),
        "item 0 (CxxFunction), return: found 65534, expected row 0, the only one, or 65535 for none",
    ),
    ("0 1 6 5 24 0 0 3", 0, (6, 14), "item 0 (CxxFunction), form: found 3, expected 0 (free), 1 (associated) or 2 (method)"),
    ("1 0 6 12 0 5 0", 0, (7, 10), "row 0 (Fn), return: found 5, expected 65535 for none; there is no row before row 0"),
    ("0 1 6 5 24 0 0 0 0", 0, (7, 16), "item 0 (CxxFunction), return: found 0, expected 65535 for none; the sheet has no row"),
    (
        "0 1 6 5 24 0 0 2 24 4",
        0,
        (6, 18),
        "item 0 (CxxFunction), flags of the receiver: found 4, expected 0 or a sum of 1 (mutable), 2 (pinned)",
    ),
    ("0 1 6 6 24 0 0 2 256", 0, (6, 16), "item 0 (RustFunction), receiver: found 256, expected a name, 0 to 255"),
    ("1 1 8 10 9 2 24 0 0 0", 0, (7, 18), "item 0 (Enum), repr row: found 0, expected a row of kind 0 (Ident); that one is of kind Str"),
    ("1 1 8 12 0 2 2 24 0 0 0 2", 0, (6, 22), "item 0 (Enum), explicit: found 2, expected 0 or 1"),
    ("1 1 8 12 0 2 2 24 0 0 0 0 256", 0, (6, 24), "item 0 (Enum), variants: found 256, expected at most 255 variants"),
    (
        "1 1 8 12 0 2 2 24 0 0 0 0 1 2",
        0,
        (6, 26),
        "item 0 (Enum), variants marked default: found 2, expected at most 1, as many as there are variants",
    ),
];

#[test]
fn words_of_every_fault() {
    for (pairs, zeros, refusal, words) in FAULTS {
        let pairs = pairs.split_whitespace().flat_map(|pair| pair.parse::<u16>().unwrap().to_le_bytes());
        let sheet: Vec<u8> = pairs.chain(std::iter::repeat_n(0, zeros)).collect();
        let fault = read(&sheet).1.expect(words);
        let found = fault.found.map_or(String::new(), |found| format!("found {found}, "));
        assert_eq!((fault.number, fault.position), refusal, "{words}");
        assert_eq!(format!("{}: {found}expected {}", fault.place, fault.expected), words);
    }
}
