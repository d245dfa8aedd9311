//! `speed [SHEETS] [--runs N] [--svg DIR]`: times the whole call beside the original Rust and prints tables in Markdown. SHEETS (1,000 if
//! not said) different accepted sheets of 32,768 bytes, which the oracle judges, of each of four groups: `full-none`, `full-mixed`,
//! `full-many`, and `all`, drawn from all profiles (`sheets`, `enlarge`). Then sheets made to be slow (`slow`), how the cost grows with
//! the size (`growth`), and the stack (`stack`). With `--svg`, the pictures speed.svg and growth.svg are written into DIR. The sheets are
//! the same in every run and on every computer.
//!
//! The Rust has its trees built beforehand, once for a sheet, and is timed for `Types::collect` and `do_typecheck` alone, without the
//! dropping of what they leave. The port is timed for everything from the sheet's bytes on. The two are timed in turn, N times (9 if not
//! said), and the best and the median of a sheet are kept. Before each call, outside the timing, the scratch is filled with old bytes; the
//! call clears it at its end, inside. What each timed call wrote is held to the Rust's answer; a difference ends the program with code 1.
//!
//! `speed --loop NAME` calls the port over and over for four seconds, for a profiler: on a profile, or on the slow sheets with NAME in
//! what they are. `speed --in-thread KIB INDEX` is for the program itself: one call in a thread with a stack of that size.

mod draw;
mod enlarge;
mod figures;
mod growth;
mod machine;
mod measure;
mod sheets;
mod slow;
mod stack;
mod tables;

use measure::Bench;
use oracle::generate::Profile;
use std::hint::black_box;
use std::path::PathBuf;
use std::time::{Duration, Instant};

const USAGE: &str = "usage: speed [SHEETS] [--runs N] [--svg DIR] | speed --loop NAME";

/// What is asked for.
struct Plan {
    sheets: usize,
    runs: usize,
    svg: Option<PathBuf>,
}

impl Plan {
    fn of(args: &[String]) -> Option<Self> {
        let mut plan = Self { sheets: 1000, runs: 9, svg: None };
        let mut args = args.iter();
        while let Some(arg) = args.next() {
            match arg.as_str() {
                "--runs" => plan.runs = args.next()?.parse().ok()?,
                "--svg" => plan.svg = Some(args.next()?.into()),
                count => plan.sheets = count.parse().ok()?,
            }
        }
        (plan.sheets > 0 && plan.runs > 0).then_some(plan)
    }
}

fn run(plan: &Plan) -> Result<(), String> {
    let machine = machine::Machine::of();
    let load = machine::load();
    let mut bench = Bench::new(plan.runs);
    tables::head(&machine, plan.sheets, plan.runs, &load);
    let groups = sheets::measured(&mut bench, plan.sheets)?;
    tables::groups(&groups);
    tables::rooms(&groups);
    let slow = slow::measured(&mut bench)?;
    tables::slow(&slow);
    tables::longest(&slow);
    let growth = growth::measured(&mut bench)?;
    tables::growth(&growth);
    tables::stack(&stack::deepest(&slow)?);
    println!("\nLoad average at the start: {load}; at the end: {}.", machine::load());
    if let Some(folder) = &plan.svg {
        let write = |name: &str, text: String| std::fs::write(folder.join(name), text).map_err(|error| format!("{name}: {error}"));
        write("speed.svg", draw::speed(&groups, &machine.to_string()))?;
        write("growth.svg", draw::growth(&growth, &machine.to_string()))?;
    }
    Ok(())
}

/// For a profiler: the port alone, for some seconds.
fn again(name: &str) -> Result<(), String> {
    let sheets: Vec<Vec<u8>> = match Profile::find(name) {
        Some(profile) => (0..20).map(|number| profile.sheet(sheets::SEED, number)).collect(),
        None => slow::sheets().into_iter().filter(|(about, _)| about.contains(name)).map(|(_, sheet)| sheet).collect(),
    };
    if sheets.is_empty() {
        return Err(format!("no sheet of the name {name}"));
    }
    let mut out = vec![0; tirvouez::room(measure::PAGE)];
    let mut scratch = [0; tirvouez::SCRATCH];
    let start = Instant::now();
    while start.elapsed() < Duration::from_secs(4) {
        for sheet in &sheets {
            black_box(tirvouez::check(sheet, &mut scratch, 0, &mut out));
        }
    }
    Ok(())
}

fn work(args: &[String]) -> Result<(), String> {
    match args {
        [option, name] if option == "--loop" => again(name),
        [option, kib, index] if option == "--in-thread" => stack::in_thread(kib, index),
        _ => run(&Plan::of(args).ok_or(USAGE)?),
    }
}

fn main() {
    let args: Vec<String> = std::env::args().skip(1).collect();
    let thread = std::thread::Builder::new().stack_size(64 << 20).spawn(move || work(&args)).expect("a thread");
    if let Err(fault) = thread.join().expect("an end") {
        eprintln!("speed: {fault}");
        std::process::exit(1);
    }
}
