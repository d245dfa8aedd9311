//! The tables of a page of docs/, for the tests that hold them to the Rust.
#![allow(dead_code)] // each test uses a part

pub fn text(page: &str) -> String {
    let path = format!("{}/../docs/{page}", env!("CARGO_MANIFEST_DIR"));
    std::fs::read_to_string(&path).expect(page)
}

/// The cells of every line of every table with this header, in order.
pub fn lines(page: &str, header: &[&str]) -> Vec<Vec<String>> {
    let mut found = Vec::new();
    let mut inside = false;
    for line in text(page).lines() {
        match cells(line) {
            None => inside = false,
            Some(cells) if cells == header => inside = true,
            Some(cells) if inside && cells[0] != "---" => {
                assert_eq!(cells.len(), header.len(), "{page}: {line}");
                found.push(cells);
            }
            Some(_) => {}
        }
    }
    assert!(!found.is_empty(), "{page} has no table {header:?}");
    found
}

fn cells(line: &str) -> Option<Vec<String>> {
    let inner = line.strip_prefix('|')?.strip_suffix('|')?;
    Some(inner.split('|').map(|cell| cell.trim().to_owned()).collect())
}

/// What stands between the first marks of a cell, as Markdown reads it: as
/// many marks close as opened, and a blank on both sides is dropped.
pub fn code(cell: &str) -> Option<String> {
    let start = cell.find('`')?;
    let rest = &cell[start..];
    let marks = rest.len() - rest.trim_start_matches('`').len();
    let rest = &rest[marks..];
    let code = &rest[..end_of_code(rest, marks)?];
    let bare = code.strip_prefix(' ').and_then(|code| code.strip_suffix(' '));
    Some(bare.unwrap_or(code).to_owned())
}

/// Where a run of exactly so many marks stands.
fn end_of_code(text: &str, marks: usize) -> Option<usize> {
    let mut at = 0;
    while let Some(found) = text[at..].find('`') {
        let run = &text[at + found..];
        let length = run.len() - run.trim_start_matches('`').len();
        if length == marks {
            return Some(at + found);
        }
        at += found + length;
    }
    None
}

/// A sheet given as pairs in decimal.
pub fn sheet(pairs: &str) -> Vec<u8> {
    let pair = |word: &str| word.parse::<u16>().unwrap_or_else(|_| panic!("no pair: {word}"));
    pairs.split(' ').flat_map(|word| pair(word).to_le_bytes()).collect()
}
