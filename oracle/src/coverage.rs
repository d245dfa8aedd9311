//! Counts which messages, refusals, details and reasons to be Unpin a run of
//! sheets has hit.

use crate::judge::{Outcome, judge};
use crate::{reader, unpin};
use std::collections::BTreeMap;
use std::fmt::Write;

#[derive(Default)]
pub struct Coverage {
    pub sheets: u64,
    pub accepted: u64,
    pub too_large: u64,
    /// Accepted sheets without any record.
    pub clean: u64,
    pub refusals: BTreeMap<u8, u64>,
    pub messages: BTreeMap<u8, u64>,
    /// By message and detail, where the detail is not 0.
    pub details: BTreeMap<(u8, u16), u64>,
    /// Names with a reason to be Unpin, by `unpin::KINDS`.
    pub unpin: [u64; 3],
}

impl Coverage {
    pub fn add(&mut self, sheet: &[u8]) {
        self.sheets += 1;
        match judge(sheet) {
            Outcome::Refused(refusal) => *self.refusals.entry(refusal.number).or_default() += 1,
            Outcome::TooLarge => self.too_large += 1,
            Outcome::Accepted(answer) => {
                self.accepted += 1;
                self.clean += answer.records.is_empty() as u64;
                for record in &answer.records {
                    *self.messages.entry(record.message).or_default() += 1;
                    if record.detail != 0 {
                        let key = (record.message, record.detail);
                        *self.details.entry(key).or_default() += 1;
                    }
                }
                let sheet = reader::read(sheet).expect("an accepted sheet");
                for reason in answer.unpin.into_iter().flatten() {
                    self.unpin[unpin::kind(&sheet, reason)] += 1;
                }
            }
        }
    }

    pub fn missing_messages(&self) -> Vec<u8> {
        (1..=58).filter(|message| !self.messages.contains_key(message)).collect()
    }

    pub fn missing_refusals(&self) -> Vec<u8> {
        (2..=8).filter(|refusal| !self.refusals.contains_key(refusal)).collect()
    }

    pub fn text(&self) -> String {
        let mut text = format!(
            "sheets {}\naccepted {}\nclean {}\ntoo large {}\n",
            self.sheets, self.accepted, self.clean, self.too_large
        );
        for (refusal, count) in &self.refusals {
            writeln!(text, "refusal {refusal} {count}").unwrap();
        }
        for (message, count) in &self.messages {
            writeln!(text, "message {message} {count}").unwrap();
        }
        for ((message, detail), count) in &self.details {
            if matches!(message, 23 | 32 | 49 | 51) {
                writeln!(text, "detail {message} {detail} {count}").unwrap();
            }
        }
        for (kind, count) in unpin::KINDS.iter().zip(self.unpin) {
            writeln!(text, "unpin {kind} {count}").unwrap();
        }
        writeln!(text, "missing refusals {:?}", self.missing_refusals()).unwrap();
        writeln!(text, "missing messages {:?}", self.missing_messages()).unwrap();
        text
    }
}
