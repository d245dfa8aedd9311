//! Holds another program against the oracle: it gets each sheet on standard
//! input and must print what the program `report` prints.

use crate::judge::{Outcome, judge};
use crate::print;
use std::io::Write;
use std::process::{Command, Stdio};

#[derive(Default)]
pub struct Comparison {
    pub compared: usize,
    pub too_large: usize,
    /// Number of the sheet, what was expected, what was printed.
    pub differing: Vec<(usize, String, String)>,
}

pub fn compare(program: &str, sheets: &[&[u8]]) -> Result<Comparison, String> {
    let mut comparison = Comparison::default();
    for (number, sheet) in sheets.iter().enumerate() {
        let outcome = judge(sheet);
        if let Outcome::TooLarge = outcome {
            comparison.too_large += 1;
            continue;
        }
        let expected = print::report(&outcome);
        let printed = run(program, sheet).map_err(|error| format!("{program}: {error}"))?;
        comparison.compared += 1;
        if printed != expected {
            comparison.differing.push((number, expected, printed));
        }
    }
    Ok(comparison)
}

fn run(program: &str, sheet: &[u8]) -> std::io::Result<String> {
    let mut command = Command::new(program);
    let mut child = command.stdin(Stdio::piped()).stdout(Stdio::piped()).spawn()?;
    // A program may stop reading early, as for a sheet that is too long.
    let written = child.stdin.take().map_or(Ok(()), |mut pipe| pipe.write_all(sheet));
    drop(written);
    let output = child.wait_with_output()?;
    Ok(String::from_utf8_lossy(&output.stdout).into_owned())
}

impl Comparison {
    /// A summary, with the first differing sheet in full.
    pub fn text(&self) -> String {
        let mut text = format!(
            "compared {}\ntoo large {}\ndiffering {}\n",
            self.compared,
            self.too_large,
            self.differing.len()
        );
        let numbers: Vec<String> =
            self.differing.iter().map(|(number, ..)| number.to_string()).collect();
        if let Some((number, expected, printed)) = self.differing.first() {
            text += &format!("sheets {}\n", numbers.join(" "));
            text +=
                &format!("sheet {number}, expected\n{expected}sheet {number}, printed\n{printed}");
        }
        text
    }
}
