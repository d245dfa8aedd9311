//! The time of the tool on a folder of full sheets, beside the time of the calls alone.

use oracle::generate::Profile;
use std::path::Path;
use std::process::{Command, Stdio};
use std::time::{Duration, Instant};
use tirvouez::Checker;

/// Of each time the best of so many is told.
const RUNS: usize = 5;
const PROFILES: [&str; 3] = ["full-none", "full-mixed", "full-many"];
const FORMS: [(&str, &[&str]); 3] =
    [("`check`", &["check"]), ("`check --brief`", &["check", "--brief"]), ("`check --json`", &["check", "--json"])];

/// Of calls with all records, in memory; and how many records there are.
fn calls(sheets: &[Vec<u8>]) -> (Duration, usize) {
    let mut checker = Checker::new();
    let mut pass = || sheets.iter().map(|sheet| checker.check(sheet).expect("an answer").total()).sum::<usize>();
    let records = pass();
    let best = (0..RUNS).map(|_| timed(&mut pass)).min().expect("a run");
    (best, records)
}

fn timed<T>(run: impl FnOnce() -> T) -> Duration {
    let start = Instant::now();
    std::hint::black_box(run());
    start.elapsed()
}

/// Of the whole program, its output thrown away.
fn program(program: &str, arguments: &[&str], folder: &Path) -> Duration {
    let run = || Command::new(program).args(arguments).arg(folder).stdout(Stdio::null()).status().expect("the program");
    (0..RUNS).map(|_| timed(run)).min().expect("a run")
}

fn printed(command: &str, arguments: &[&str], folder: &Path) -> usize {
    Command::new(command).args(arguments).arg(folder).output().expect("the program").stdout.len()
}

/// Prints a table in Markdown.
pub fn time(command: &str, count: u64) {
    println!("| Profile | Sheets | Records | Calls alone, ms | Form | Printed, MB | Tool, ms | Tool / calls |");
    println!("|---|---|---|---|---|---|---|---|");
    for name in PROFILES {
        let profile = Profile::find(name).expect("a profile");
        let sheets: Vec<Vec<u8>> = (0..count).map(|number| profile.sheet(1, number)).collect();
        let folder = std::env::temp_dir().join(format!("tirvouez-time-{}", std::process::id()));
        std::fs::create_dir_all(&folder).expect("a folder");
        for (number, sheet) in sheets.iter().enumerate() {
            std::fs::write(folder.join(format!("{number:06}.sheet")), sheet).expect("a file");
        }
        let (alone, records) = calls(&sheets);
        let ms = |time: Duration| 1e3 * time.as_secs_f64();
        for (form, arguments) in FORMS {
            let time = program(command, arguments, &folder);
            let megabytes = printed(command, arguments, &folder) as f64 / 1e6;
            let ratio = time.as_secs_f64() / alone.as_secs_f64();
            println!("| {name} | {count} | {records} | {:.1} | {form} | {megabytes:.1} | {:.1} | {ratio:.2} |", ms(alone), ms(time));
        }
        std::fs::remove_dir_all(folder).expect("a folder");
    }
}
