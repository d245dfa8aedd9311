//! The stored answers of the original Rust (testdata/answers.bin, see its README): every part of every one.

use tirvouez::{ANSWER, Answer, Checker, Letter, RECORD, SCRATCH, Set, UnpinReason, Unreadable, VERSION, all_records, check, room};

/// The most records that are stored of an answer.
const STORED: usize = 4096;

/// Takes numbers and runs of bytes off the front.
struct File<'a>(&'a [u8]);

impl<'a> File<'a> {
    fn bytes(&mut self, count: usize) -> &'a [u8] {
        let (front, rest) = self.0.split_at(count);
        self.0 = rest;
        front
    }

    fn number(&mut self, bytes: usize) -> usize {
        self.bytes(bytes).iter().rev().fold(0, |n, &byte| n << 8 | usize::from(byte))
    }
}

/// How many items of an accepted sheet are structs (docs/SHEET.md).
fn structs(sheet: &[u8]) -> u8 {
    let pair = |at: usize| usize::from(u16::from_le_bytes([sheet[at], sheet[at + 1]]));
    (0..pair(2)).filter(|item| pair(pair(4 + 2 * (pair(0) + item))) == 1).count() as u8
}

/// What the buffer must hold for the stored answer that is next in the file.
fn expected(file: &mut File, sheet: &[u8]) -> Vec<u8> {
    let mut bytes = vec![file.number(1) as u8, VERSION];
    bytes.extend((ANSWER as u16).to_le_bytes());
    bytes.extend(file.bytes(4 + 4)); // position, total
    bytes.extend([0; 4]); // how many records, set below
    bytes.extend(file.bytes(256 + 16 + 512)); // sets, sizes, reasons
    bytes.extend(file.bytes(255)); // order
    bytes.push(if bytes[0] == 0 { structs(sheet) } else { 0 });
    bytes.extend(file.bytes(255)); // tiers
    bytes.push(0);
    bytes.extend(file.bytes(512)); // reasons to be Unpin
    let collected = file.number(2);
    file.bytes(2 * collected);
    let records = file.number(4);
    bytes[12..16].copy_from_slice(&(records as u32).to_le_bytes());
    bytes.extend(file.bytes(RECORD * records));
    bytes
}

#[test]
fn stored_answers() {
    let stored = std::fs::read(concat!(env!("CARGO_MANIFEST_DIR"), "/../../testdata/answers.bin")).unwrap();
    let mut file = File(&stored);
    let sheets = file.number(4);
    let (mut checker, mut longest) = (Checker::new(), 0);
    for number in 0..sheets {
        let length = file.number(4);
        let sheet = file.bytes(length);
        let expected = expected(&mut file, sheet);
        let mut out = vec![0xA5; room(STORED) + 1];
        let mut scratch = vec![0x5A; SCRATCH + 1];
        let written = check(sheet, &mut scratch, 0, &mut out);
        assert!(out[..written] == expected, "sheet {number}");
        assert!(out[written..].iter().all(|&byte| byte == 0xA5), "sheet {number}: past the end");
        let cleared = if expected[0] == 0 { 0 } else { 0x5A };
        assert!(scratch[..SCRATCH].iter().all(|&byte| byte == cleared), "sheet {number}: scratch");
        assert_eq!(scratch[SCRATCH], 0x5A, "sheet {number}: scratch");
        // the same from buffers that serve all, and every record
        let answer = checker.check(sheet).unwrap();
        assert!(answer.records().len() == answer.total() && answer.records().take(STORED).eq(Answer::new(&expected).unwrap().records()));
        longest = longest.max(answer.total());
    }
    assert!(longest > STORED, "no report was longer than the buffer at first");
    assert!(file.0.is_empty());
    println!("{sheets} stored answers");
}

/// docs/MESSAGES.md: a struct without fields (27) that derives BitAnd (29), as pairs.
const SHEET: [u8; 18] = [0, 0, 1, 0, 6, 0, 1, 0, 24, 0, 0, 0, 1, 0, 11, 0, 0, 0];

#[test]
fn too_little_room() {
    let sheet = [0; 4];
    let mut scratch = [1; SCRATCH];
    let mut out = [2; ANSWER - 1];
    assert_eq!(check(&sheet, &mut scratch, 0, &mut out), 0);
    assert!(scratch == [1; SCRATCH] && out == [2; ANSWER - 1]);
    assert_eq!(Answer::new(&out[..0]).unwrap_err(), Unreadable::Short(0));
    assert_eq!(Answer::new(&out).unwrap_err(), Unreadable::Short(ANSWER - 1));
    assert_eq!(all_records(&sheet, &mut scratch, &mut out).unwrap_err(), Unreadable::Short(ANSWER - 1));
    // refusal 1: a scratch that is too short
    let mut out = [2; ANSWER];
    assert_eq!(check(&sheet, &mut scratch[1..], 0, &mut out), ANSWER);
    assert_eq!(Answer::new(&out).unwrap().verdict(), Err((1, 0)));
    assert_eq!(check(&sheet, &mut scratch, 0, &mut out), ANSWER);
    assert_eq!(Answer::new(&out).unwrap().verdict(), Ok(()));
    assert_eq!(check(&[], &mut [], usize::MAX, &mut out), ANSWER);
    assert_eq!(Answer::new(&out).unwrap().verdict(), Err((1, 0)));
}

#[test]
fn readers() {
    let (mut scratch, mut out) = ([0; SCRATCH], [0; room(2)]);
    let written = check(&SHEET, &mut scratch, 0, &mut out);
    let answer = Answer::new(&out[..written]).unwrap();
    assert_eq!((answer.verdict(), answer.total(), answer.structs()), (Ok(()), 2, 1));
    assert_eq!((answer.order(), answer.tiers()[0], answer.reasons(24)), (&[0][..], 0, 0));
    assert!(answer.has(Set::Structs, 24) && !answer.has(Set::Improper, 24));
    assert_eq!((answer.size(Set::Structs), answer.size(Set::Enums)), (1, 0));
    let found: Vec<_> = answer.records().map(|r| (r.message, Letter::of(r.letter).unwrap(), r.first, r.second)).collect();
    assert_eq!(found, [(27, Letter::Item, 0, 0), (29, Letter::Derive, 0, 0)]);
    assert!(Letter::Derive.has_second() && !Letter::Item.has_second() && Letter::of(b'X').is_none());
    let one_by_one = all_records(&SHEET, &mut scratch, &mut [0; room(1)]).unwrap();
    assert!(one_by_one.into_iter().eq(answer.records()));
}

#[test]
fn numbers_of_reasons_to_be_unpin() {
    let mut bytes = [0; ANSWER];
    bytes[1..4].copy_from_slice(&[VERSION, 0x20, 0x07]);
    let mut expected = Vec::new();
    for (name, number, reason) in [
        (0, 1_u16, UnpinReason::Row(0)),
        (27, 1_024, UnpinReason::Row(1_023)),
        (28, 32_768, UnpinReason::Item(0)),
        (255, 33_022, UnpinReason::Item(254)),
    ] {
        let at = 1_312 + 2 * usize::from(name);
        bytes[at..at + 2].copy_from_slice(&number.to_le_bytes());
        expected.push((name, reason));
    }
    let answer = Answer::new(&bytes).unwrap();
    assert_eq!(answer.unpin_reasons().collect::<Vec<_>>(), expected);
    assert_eq!((answer.unpin(27), answer.unpin(255), answer.unpin(1)), (Some(expected[1].1), Some(expected[3].1), None));
}

/// Sheets as pairs, each with the one name that must be Unpin, if there is one: those of crates/rules/specs/Examples.antt.
const UNPIN: [(&str, Option<(u8, UnpinReason)>); 7] = [
    // a CxxType, and a function over a mutable reference to it
    ("2 2 12 16 22 32 0 27 7 1 0 3 27 0 0 0 5 30 0 0 0 65535 1 1", Some((27, UnpinReason::Row(1)))),
    // an alias with all three: the reference stands
    ("3 3 16 20 26 32 40 58 0 27 7 1 0 10 1 0 7 27 0 0 5 30 0 0 0 65535 2 1 2 5 31 0 0 2 27 1 65535 0", Some((27, UnpinReason::Row(1)))),
    // a slice, and then methods: of those that are not pinned the last
    (
        "3 5 20 24 30 36 44 62 80 98 0 27 10 1 0 7 3 0 7 27 0 0 5 30 0 0 2 27 1 65535 0 6 31 0 0 2 27 1 65535 0 \
         5 32 0 0 2 27 3 65535 0 5 33 0 0 1 27 1 1 2",
        Some((27, UnpinReason::Item(2))),
    ),
    // a struct and an alias of one name
    ("4 4 20 24 30 36 40 52 60 78 0 27 7 1 0 10 1 0 0 2 1 27 0 0 1 3 7 27 0 0 5 30 0 0 0 65535 2 1 2 5 31 0 0 2 27 1 65535 0", None),
    // a method of Self, which nothing declares, and of Self as an alias
    ("0 2 8 16 7 27 0 0 5 30 0 0 2 23 1 65535 0", None),
    ("0 2 8 16 7 23 0 0 5 30 0 0 2 23 1 65535 0", Some((23, UnpinReason::Item(1)))),
    // nothing mutable
    ("3 3 16 20 26 32 40 58 0 27 10 0 0 7 0 0 7 27 0 0 5 30 0 0 0 65535 2 1 2 5 31 0 0 2 27 0 65535 0", None),
];

#[test]
fn reasons_to_be_unpin() {
    let mut checker = Checker::new();
    for (pairs, reason) in UNPIN {
        let sheet: Vec<u8> = pairs.split(' ').flat_map(|pair| pair.parse::<u16>().unwrap().to_le_bytes()).collect();
        let answer = checker.check(&sheet).unwrap();
        assert_eq!((answer.verdict(), answer.unpin_reasons().collect::<Vec<_>>()), (Ok(()), reason.into_iter().collect()), "{pairs}");
    }
    assert_eq!(checker.check(&[]).unwrap().unpin_reasons().next(), None);
}

#[test]
fn other_layouts() {
    let (mut scratch, mut out) = ([0; SCRATCH], vec![0; room(2)]);
    let written = check(&SHEET, &mut scratch, 0, &mut out);
    assert_eq!(Answer::new(&out[..written - RECORD]).unwrap_err(), Unreadable::Cut);
    out[1] = VERSION + 1;
    let fault = Answer::new(&out[..written]).unwrap_err();
    assert_eq!(fault, Unreadable::Version(VERSION + 1));
    assert_eq!(fault.to_string(), "the answer has layout version 3, and this crate reads version 2");
    // the one before has no reasons to be Unpin
    out[1] = 1;
    assert_eq!(Answer::new(&out[..written]).unwrap_err(), Unreadable::Version(1));
    // the same version with a part more: the records begin further on
    out[1] = VERSION;
    out.splice(ANSWER..ANSWER, [0xFF; 16]);
    out[2] += 16;
    assert_eq!(Answer::new(&out).unwrap().records().map(|r| r.message).collect::<Vec<_>>(), [27, 29]);
    // within the answer, and past the end
    out[2] -= 24;
    assert_eq!(Answer::new(&out).unwrap_err(), Unreadable::Cut);
    out[3] = 0xFF;
    assert_eq!(Answer::new(&out).unwrap_err(), Unreadable::Cut);
}
