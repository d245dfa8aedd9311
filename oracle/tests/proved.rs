//! The sheets of docs/RULES.md and docs/SHEET.md give what is said there.

use oracle::judge::{Outcome, Reason, judge};
use oracle::{print, proved};

fn report(sheet: &[u8]) -> String {
    print::report(&judge(sheet))
}

/// Lines of a report: total, order, tiers, improper names, records.
fn lines(total: usize, order: &str, tiers: &str, improper: &str, records: &[&str]) -> String {
    let with = |word: &str, rest: &str| match rest {
        "" => format!("{word}\n"),
        rest => format!("{word} {rest}\n"),
    };
    assert_eq!(total, records.len());
    let mut text = format!("accepted {total}\n");
    text += &with("order", order);
    text += &with("tiers", tiers);
    text += &with("improper", improper);
    text + &records.iter().map(|record| format!("{record}\n")).collect::<String>()
}

#[test]
fn worked_sheet() {
    let expected = "accepted 2\norder 1 0\ntiers 255 255\nimproper\n2 F 1 0 0\n2 F 0 0 0\n";
    assert_eq!(report(&proved::worked()), expected);
}

#[test]
fn eleven_sheets() {
    let expected = [
        lines(0, "", "", "", &[]),
        lines(2, "1 0", "255 255", "", &["2 F 1 0 0", "2 F 0 0 0"]),
        lines(1, "0 1", "255 255", "", &["2 F 0 0 0"]),
        lines(0, "0", "0", "", &[]),
        lines(1, "1 0", "0 1", "", &["1 I 1 0"]),
        lines(2, "0", "255", "", &["2 F 0 0 0", "57 I 0 0"]),
        lines(3, "", "", "", &["9 R 2 0", "17 R 3 0", "49 A 0 2 17"]),
        lines(2, "", "", "", &["34 D 0 0 0", "34 D 2 0 2"]),
        lines(1, "", "", "", &["33 I 0 0"]),
        lines(0, "0 1", "0 0", "24 25", &[]),
        lines(1, "1 2", "0 0", "", &["1 I 3 0"]),
    ];
    for (sheet, expected) in proved::eleven().iter().zip(expected) {
        assert_eq!(report(sheet), expected);
    }
}

#[test]
fn eleven_sheets_taken_apart() {
    let expected = [
        lines(0, "", "", "", &[]),
        lines(1, "", "", "", &["9 R 1 0"]),
        lines(2, "", "", "", &["17 R 1 0", "49 A 0 0 17"]),
        lines(1, "", "", "", &["34 D 0 0 0"]),
        lines(0, "", "", "", &[]),
        lines(1, "", "", "", &["34 D 0 0 2"]),
        lines(1, "", "", "", &["33 I 0 0"]),
        lines(0, "", "", "", &[]),
        lines(0, "1", "0", "", &[]),
        lines(1, "0", "0", "", &["1 I 1 0"]),
    ];
    for (sheet, expected) in proved::parts().iter().zip(expected) {
        assert_eq!(report(sheet), expected);
    }
}

type Reasons = [Option<Reason>; 256];

/// The reasons to be Unpin that the Rust has, and those of every C++ name.
fn unpin(sheet: &[u8]) -> (Reasons, Reasons) {
    match judge(sheet) {
        Outcome::Accepted(answer) => (answer.required_unpin, answer.unpin),
        _ => panic!("a sheet that is not accepted"),
    }
}

#[test]
fn seven_sheets_with_reasons() {
    let expected = [
        Some((27, Reason::Row(1))),
        Some((27, Reason::Row(1))),
        Some((27, Reason::Item(2))),
        None,
        None,
        Some((23, Reason::Item(1))),
        None,
    ];
    assert_eq!(proved::handles().len(), expected.len());
    for (number, (sheet, expected)) in proved::handles().iter().zip(expected).enumerate() {
        let mut reasons = [None; 256];
        if let Some((name, reason)) = expected {
            reasons[name] = Some(reason);
        }
        // The first sheet has a CxxType and no alias.
        let by_rust = if number == 0 { [None; 256] } else { reasons };
        assert_eq!(unpin(sheet), (by_rust, reasons), "sheet {number}");
    }
}

/// The sheets of Examples.antt, each a list of pairs, with the reasons to be
/// Unpin that are expected of it.
fn examples() -> Vec<(Vec<u8>, Reasons)> {
    let path = concat!(env!("CARGO_MANIFEST_DIR"), "/../crates/rules/specs/Examples.antt");
    let text = std::fs::read_to_string(path).expect("Examples.antt");
    let part = |case: &str, begin: &str| -> Vec<String> {
        let (_, rest) = case.split_once(begin).expect(begin);
        let (list, _) = rest.split_once("[]").expect("a list");
        let words = list.split('∷').map(|word| word.trim().to_owned());
        words.filter(|word| !word.is_empty()).collect()
    };
    let number = |word: &str| word.parse::<u16>().expect("a number");
    let of_case = |case: &str| {
        let sheet =
            part(case, "sheet = ").iter().flat_map(|word| number(word).to_le_bytes()).collect();
        let mut reasons = [None; 256];
        for pair in part(case, "unpin = ") {
            let words: Vec<&str> =
                pair.split(['(', ')', ',', ' ']).filter(|word| !word.is_empty()).collect();
            reasons[usize::from(number(words[0]))] = match words[1] {
                "Row" => Some(Reason::Row(number(words[2]))),
                _ => Some(Reason::Item(number(words[2]) as u8)),
            };
        }
        (sheet, reasons)
    };
    text.split("record {\n      sheet")
        .skip(1)
        .map(|rest| of_case(&format!("sheet{rest}")))
        .collect()
}

#[test]
fn seven_sheets_are_those_of_the_definitions() {
    let examples = examples();
    for (number, sheet) in proved::handles().iter().enumerate() {
        assert!(examples.iter().any(|(example, _)| example == sheet), "sheet {number}");
    }
}

/// What the table of the definitions expects of each sheet, the eleven too.
#[test]
fn reasons_of_the_definitions() {
    let examples = examples();
    assert!(examples.len() >= 23);
    for (number, (sheet, reasons)) in examples.iter().enumerate() {
        assert_eq!(unpin(sheet).1, *reasons, "sheet {number}");
    }
}

#[test]
fn refusals() {
    let expected = [(2, 0), (3, 0), (4, 0), (5, 0), (6, 6), (7, 8), (8, 10)];
    for (sheet, (number, position)) in proved::refused().iter().zip(expected) {
        assert_eq!(report(sheet), format!("refused {number} at {position}\n"));
    }
}

#[test]
fn readings() {
    let expected = [
        "refused 5 at 0",
        "refused 5 at 6",
        "refused 5 at 4",
        "refused 8 at 12",
        "refused 5 at 0",
        "refused 5 at 4",
        "refused 6 at 10",
        "refused 6 at 12",
        "refused 7 at 18",
        "refused 7 at 20",
        "accepted 0",
    ];
    for (sheet, expected) in proved::readings().iter().zip(expected) {
        assert_eq!(report(sheet).lines().next(), Some(expected));
    }
}
