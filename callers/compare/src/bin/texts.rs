//! `texts PROGRAM NAME`: gives the stored sheets to an example, each in a file, and compares what it prints with the original Rust's report.

use oracle::judge::{Outcome, judge};
use oracle::{print, stored};
use std::process::Command;

fn main() {
    let args: Vec<String> = std::env::args().skip(1).collect();
    let [program, name] = &args[..] else { panic!("usage: texts PROGRAM NAME") };
    let file = std::env::temp_dir().join(format!("tirvouez-{}.sheet", std::process::id()));
    let sheets = stored::sheets();
    for (number, sheet) in sheets.iter().enumerate() {
        std::fs::write(&file, sheet).expect("a file");
        let run = Command::new(program).arg(&file).output().expect("a program");
        assert!(run.status.success(), "sheet {number}: {}", run.status);
        let outcome = judge(sheet);
        // `report` prints 512 records, the example all
        let mut wanted = print::report(&outcome);
        if let Outcome::Accepted(answer) = &outcome {
            let rest = answer.records.iter().skip(512);
            wanted.extend(rest.map(|record| print::one(record) + "\n"));
        }
        assert!(run.stdout == wanted.as_bytes(), "sheet {number} differs");
    }
    std::fs::remove_file(&file).ok();
    println!("{} stored sheets through {name}: no difference", sheets.len());
}
