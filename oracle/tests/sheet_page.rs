//! The examples of docs/SHEET.md, given to the reader.

mod page;

use oracle::proved;
use oracle::reader::read;

const PAGE: &str = "SHEET.md";

/// `1 0` and 1 byte 0, or 3 bytes 0: the pairs, and zero bytes behind them.
fn example(cell: &str) -> Vec<u8> {
    let pairs = page::code(cell);
    let mut sheet = pairs.as_deref().map_or(Vec::new(), page::sheet);
    let words: Vec<&str> = cell.rsplit('`').next().unwrap_or("").split_whitespace().collect();
    match words[..] {
        [] => assert!(pairs.is_some(), "no example: {cell}"),
        ["and", "1", "byte", "0"] => sheet.push(0),
        [count, "bytes", "0"] => {
            let count: usize = count.replace(',', "").parse().expect("a count of bytes");
            sheet.resize(sheet.len() + count, 0);
        }
        _ => panic!("an example that is not understood: {cell}"),
    }
    sheet
}

fn answer(sheet: &[u8]) -> String {
    match read(sheet) {
        Ok(_) => "accepted".to_owned(),
        Err(refusal) => format!("{} at {}", refusal.number, refusal.position),
    }
}

/// Every refusal has its example, and gets its number and position.
#[test]
fn refusals() {
    let mut numbers = Vec::new();
    for line in page::lines(PAGE, &["No.", "When", "Position", "Example", "Answer"]) {
        let [number, _, position, cell, expected] = &line[..] else { unreachable!() };
        assert_eq!(expected.split(' ').next(), Some(number.as_str()));
        numbers.push(number.parse::<u8>().expect("a number"));
        // Refusal 1 is about the scratch, which the reader does not have.
        if number == "1" {
            assert_eq!((position.as_str(), expected.as_str()), ("0", "1 at 0"));
            continue;
        }
        let sheet = example(cell);
        assert_eq!(answer(&sheet), *expected, "{cell}");
        let at = expected.rsplit(' ').next().expect("a position");
        if position.starts_with(|c: char| c.is_ascii_digit()) {
            assert_eq!(position, at, "{cell}");
        }
    }
    assert!(numbers.is_sorted());
    numbers.dedup();
    assert_eq!(numbers, [1, 2, 3, 4, 5, 6, 7, 8]);
}

#[test]
fn finer_points() {
    for line in page::lines(PAGE, &["Point", "Example", "Answer"]) {
        assert_eq!(answer(&example(&line[1])), line[2], "{}", line[0]);
    }
}

#[test]
fn worked_sheet() {
    let lines = page::lines(PAGE, &["At byte", "Pair", "What"]);
    let mut sheet = Vec::new();
    for line in &lines {
        assert_eq!(line[0], sheet.len().to_string());
        sheet.extend(page::sheet(&line[1]));
    }
    assert_eq!(sheet, proved::worked());
}
