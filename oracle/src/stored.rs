//! The fixed list of sheets with their answers: testdata/answers.bin.

use crate::generate::Profile;
use crate::judge::{Answer, Outcome, judge};
use crate::{print, proved, unpin};

/// Records that are stored of one sheet at most.
const STORED: usize = 4_096;

/// Profile, seed, first number, how many, step from one number to the next.
const RUNS: [(&str, u64, u64, u64, u64); 28] = [
    ("limits", 1, 0, 40, 1),
    ("cuts", 1, 0, 45, 7),
    ("offsets", 1, 0, 40, 5),
    ("values", 1, 0, 70, 61),
    ("damaged", 1, 0, 70, 1),
    ("changed", 1, 0, 40, 1),
    ("pairs", 1, 0, 144, 1),
    ("pairs", 1, 144, 30, 13),
    ("triples", 1, 0, 30, 1),
    ("targets", 1, 0, 60, 1),
    ("opaque", 1, 0, 80, 29),
    ("functions", 1, 0, 60, 1),
    ("derives", 1, 0, 30, 1),
    ("cycles", 1, 0, 40, 1),
    ("improper", 1, 0, 30, 1),
    ("tiny", 1, 0, 40, 1),
    ("small", 1, 0, 60, 1),
    ("reserved", 1, 0, 20, 1),
    ("few", 1, 0, 20, 1),
    ("nests", 1, 0, 12, 1),
    ("medium", 1, 0, 8, 1),
    ("chains", 1, 0, 10, 1),
    ("items", 1, 0, 3, 1),
    ("rows", 1, 0, 2, 1),
    ("full-many", 1, 0, 4, 1),
    ("full-none", 1, 0, 3, 1),
    ("full-mixed", 1, 0, 3, 1),
    ("handles", 1, 0, 40, 1),
];

pub fn sheets() -> Vec<Vec<u8>> {
    let mut sheets = proved::eleven();
    sheets.extend(proved::parts());
    sheets.extend(proved::refused());
    sheets.extend(proved::readings());
    for (name, seed, first, count, step) in RUNS {
        let profile = Profile::find(name).expect("a profile");
        let numbers = (0..count).map(|index| first + index * step);
        sheets.extend(numbers.map(|number| profile.sheet(seed, number)));
    }
    sheets.extend(proved::handles());
    sheets
}

/// The whole file.
pub fn answers() -> Vec<u8> {
    let sheets = sheets();
    let mut file = (sheets.len() as u32).to_le_bytes().to_vec();
    for sheet in &sheets {
        file.extend((sheet.len() as u32).to_le_bytes());
        file.extend(sheet);
        match judge(sheet) {
            Outcome::Refused(refusal) => {
                file.push(refusal.number);
                file.extend((refusal.position as u32).to_le_bytes());
                file.extend(REFUSED);
            }
            Outcome::Accepted(answer) => push_answer(&mut file, &answer),
            Outcome::TooLarge => panic!("a sheet that is compared with nothing"),
        }
    }
    file
}

/// Total, sets, sizes, reasons, order, tiers, reasons to be Unpin, two counts:
/// all 0.
const REFUSED: [u8; 4 + 256 + 16 + 512 + 255 + 255 + 512 + 2 + 4] = [0; 1_816];

fn push_answer(file: &mut Vec<u8>, answer: &Answer) {
    // Verdict and position.
    file.extend([0; 5]);
    file.extend((answer.records.len() as u32).to_le_bytes());
    for word in answer.sets.as_flattened() {
        file.extend(word.to_le_bytes());
    }
    for set in &answer.sets {
        push_pair(file, print::size(set) as u16);
    }
    for &count in &answer.reasons {
        push_pair(file, count);
    }
    push_padded(file, &answer.order);
    push_padded(file, &answer.tiers);
    for &reason in &answer.unpin {
        push_pair(file, unpin::number(reason));
    }
    push_pair(file, answer.collected.len() as u16);
    for &row in &answer.collected {
        push_pair(file, row);
    }
    let records = &answer.records[..answer.records.len().min(STORED)];
    file.extend((records.len() as u32).to_le_bytes());
    for record in records {
        file.extend([record.message, record.letter]);
        push_pair(file, record.first);
        push_pair(file, record.second);
        push_pair(file, record.detail);
    }
}

fn push_pair(file: &mut Vec<u8>, value: u16) {
    file.extend(value.to_le_bytes());
}

/// 255 bytes, zeros after the last.
fn push_padded(file: &mut Vec<u8>, bytes: &[u8]) {
    let mut padded = [0; 255];
    padded[..bytes.len()].copy_from_slice(bytes);
    file.extend(padded);
}
