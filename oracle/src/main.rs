//! `oracle`: judges sheets with the original Rust. See README.md.

use oracle::coverage::Coverage;
use oracle::judge::{bench, judge};
use oracle::{against, batch, book, print, stored};
use std::io::{self, Read, Write};
use std::process::ExitCode;
use std::time::Duration;

const USAGE: &str = "usage: oracle [--full] < sheet
       oracle --batch [--full] < batch
       oracle --bench FILE | --coverage FILE | --against PROGRAM FILE
       oracle --answers > testdata/answers.bin
       oracle --book";

fn main() -> ExitCode {
    let args: Vec<String> = std::env::args().skip(1).collect();
    let args: Vec<&str> = args.iter().map(String::as_str).collect();
    let done = match args[..] {
        [] => one(false),
        ["--full"] => one(true),
        ["--batch"] => many(false),
        ["--batch", "--full"] | ["--full", "--batch"] => many(true),
        ["--bench", file] => time(file),
        ["--coverage", file] => count(file),
        ["--against", program, file] => against(program, file),
        ["--answers"] => answers(),
        ["--book"] => Ok(print!("{}", book::text())),
        _ => Err(USAGE.to_owned()),
    };
    match done {
        Ok(()) => ExitCode::SUCCESS,
        Err(message) => {
            eprintln!("{message}");
            ExitCode::FAILURE
        }
    }
}

fn stdin() -> Result<Vec<u8>, String> {
    let mut bytes = Vec::new();
    let read = io::stdin().lock().read_to_end(&mut bytes);
    read.map_err(|error| error.to_string())?;
    Ok(bytes)
}

fn text(sheet: &[u8], full: bool) -> String {
    let outcome = judge(sheet);
    if full { print::full(&outcome) } else { print::report(&outcome) }
}

fn one(full: bool) -> Result<(), String> {
    print!("{}", text(&stdin()?, full));
    Ok(())
}

fn many(full: bool) -> Result<(), String> {
    let mut out = io::BufWriter::new(io::stdout().lock());
    for sheet in batch::split(&stdin()?)? {
        write!(out, "{}--\n", text(sheet, full)).map_err(|error| error.to_string())?;
    }
    out.flush().map_err(|error| error.to_string())
}

fn file(path: &str) -> Result<Vec<u8>, String> {
    std::fs::read(path).map_err(|error| format!("{path}: {error}"))
}

/// The best of this many runs of a sheet is its time.
const RUNS: usize = 9;

fn time(path: &str) -> Result<(), String> {
    let bytes = file(path)?;
    let mut total = Duration::ZERO;
    let mut timed = 0;
    for (number, sheet) in batch::split(&bytes)?.into_iter().enumerate() {
        let runs: Option<Vec<_>> = (0..RUNS).map(|_| bench(sheet)).collect();
        let Some((best, records)) = runs.and_then(|runs| runs.into_iter().min()) else {
            println!("sheet {number} bytes {} not judged", sheet.len());
            continue;
        };
        let us = best.as_nanos() as f64 / 1000.0;
        println!("sheet {number} bytes {} records {records} us {us:.1}", sheet.len());
        total += best;
        timed += 1;
    }
    println!("total sheets {timed} us {:.1}", total.as_nanos() as f64 / 1000.0);
    Ok(())
}

fn count(path: &str) -> Result<(), String> {
    let bytes = file(path)?;
    let mut coverage = Coverage::default();
    for sheet in batch::split(&bytes)? {
        coverage.add(sheet);
    }
    print!("{}", coverage.text());
    Ok(())
}

fn against(program: &str, path: &str) -> Result<(), String> {
    let bytes = file(path)?;
    let comparison = against::compare(program, &batch::split(&bytes)?)?;
    print!("{}", comparison.text());
    if comparison.differing.is_empty() { Ok(()) } else { Err("the two differ".to_owned()) }
}

fn answers() -> Result<(), String> {
    let written = io::stdout().lock().write_all(&stored::answers());
    written.map_err(|error| error.to_string())
}
