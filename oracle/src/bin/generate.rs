//! `generate --profile NAME --seed N --count N`: sheets in the batch format.

use oracle::batch;
use oracle::generate::{PROFILES, Profile};
use std::io::{self, Write};
use std::process::ExitCode;

const USAGE: &str =
    "usage: generate --profile NAME [--seed N] [--count N] [--first N] | --list-profiles";

fn main() -> ExitCode {
    match run(&std::env::args().skip(1).collect::<Vec<_>>()) {
        Ok(()) => ExitCode::SUCCESS,
        Err(message) => {
            eprintln!("{message}");
            ExitCode::FAILURE
        }
    }
}

fn run(args: &[String]) -> Result<(), String> {
    if args == ["--list-profiles"] {
        for profile in &PROFILES {
            println!("{:12} {}", profile.name, profile.about);
        }
        return Ok(());
    }
    let (mut profile, mut seed, mut count, mut first) = (None, 1, 1, 0);
    for option in args.chunks(2) {
        let [name, value] = option else {
            return Err(USAGE.to_owned());
        };
        let number = || value.parse::<u64>().map_err(|_| USAGE.to_owned());
        match name.as_str() {
            "--profile" => profile = Profile::find(value),
            "--seed" => seed = number()?,
            "--count" => count = number()?,
            "--first" => first = number()?,
            _ => return Err(USAGE.to_owned()),
        }
    }
    let profile = profile.ok_or(USAGE)?;
    let mut out = io::BufWriter::new(io::stdout().lock());
    for number in first..first + count {
        let mut framed = Vec::new();
        batch::push(&mut framed, &profile.sheet(seed, number));
        out.write_all(&framed).map_err(|error| error.to_string())?;
    }
    out.flush().map_err(|error| error.to_string())
}
