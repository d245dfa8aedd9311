//! The report: tables in Markdown.

use crate::figures::{all_by_few, greatest, grouped, mean, percentile, ratios, rust_best, rust_median, sum, whole};
use crate::growth::Growth;
use crate::machine::Machine;
use crate::measure::{Sample, Times};
use crate::sheets::Group;
use crate::slow::{LONGEST, Slow};
use crate::stack::Threads;

fn title(text: &str, columns: &[&str]) {
    println!("\n## {text}\n\n| {} |\n|{}", columns.join(" | "), "---|".repeat(columns.len()));
}

fn row(cells: &[String]) {
    println!("| {} |", cells.join(" | "));
}

pub fn head(machine: &Machine, sheets: usize, runs: usize, load: &str) {
    println!("{machine}; {}; load average at the start: {load}.", machine.rustc());
    println!("{} sheets a group, {runs} runs a sheet on each side, in turn; best and median of each sheet.", whole(sheets));
    println!("The scratch is filled with old bytes before each call, outside the timing; the call clears it, inside.");
}

/// Times in µs a sheet, sums in ms; the port with room for 4,096 records.
pub fn groups(groups: &[Group]) {
    let columns = [
        "Profile",
        "Sheets",
        "Records, mean",
        "Rust, sum, ms",
        "Port, sum, ms",
        "Rust, mean, µs",
        "Port, mean, µs",
        "Port / Rust, sums of best",
        "sums of medians",
        "10 %",
        "50 %",
        "90 %",
        "99 %",
        "worst sheet",
    ];
    title("Full sheets, port with room for 4,096 records", &columns);
    for Group { name, samples, .. } in groups {
        let (rust, port) = (sum(samples, rust_best), sum(samples, |s| s.port[1].best));
        let medians = sum(samples, |s| s.port[1].median) / sum(samples, rust_median);
        let worst = greatest(samples, |s| s.ratio().unwrap_or(0.0));
        let ratios = ratios(samples);
        let mut cells = vec![name.to_string(), whole(samples.len()), whole(mean(samples, |s| s.records as f64).round() as usize)];
        cells.extend([grouped(rust / 1000.0), grouped(port / 1000.0)]);
        cells.extend([rust, port].map(|sum| grouped(sum / samples.len() as f64)));
        cells.extend([port / rust, medians].map(|ratio| format!("{ratio:.4}")));
        cells.extend([10, 50, 90, 99].map(|percent| format!("{:.4}", percentile(&ratios, percent))));
        cells.push(format!("{:.4} ({})", worst.ratio().unwrap_or(0.0), worst.label));
        row(&cells);
    }
    println!("\nPercentiles and the worst sheet are of the ratios of single sheets, by best times. No two of all these sheets are equal.");
    println!("`all` takes all profiles in turn; what is not full is enlarged with sheets of its profile, fields and structs.");
    for Group { name, passed, .. } in groups {
        println!("Passed over in {name}: {} equal to one before, {} refused, not full or not judged.", passed.equal, passed.unfit);
    }
}

/// What room for more records costs.
pub fn rooms(groups: &[Group]) {
    title("Room for records, sums of best, ms", &["Profile", "512", "4,096", "all", "all / 512", "worst sheet"]);
    for Group { name, samples, .. } in groups {
        let sums = [0, 1, 2].map(|room: usize| sum(samples, |s| s.port[room].best));
        let worst = greatest(samples, all_by_few);
        let mut cells = vec![name.to_string()];
        cells.extend(sums.map(|sum| grouped(sum / 1000.0)));
        cells.push(format!("{:.3}", sums[2] / sums[0]));
        cells.push(format!("{:.3} ({})", all_by_few(worst), worst.label));
        row(&cells);
    }
    println!(
        "\nThe call with room for 4,096 comes right after the Rust's, the other two after it, in changing order: its caches are colder."
    );
}

pub fn slow(sheets: &[Slow]) {
    title("Sheets made to be slow, best times, µs", &["Sheet", "Bytes", "Records", "Rust", "Port, 4,096", "Port / Rust", "Stack, bytes"]);
    for Slow { sample, stack } in sheets {
        row(&[
            sample.label.clone(),
            whole(sample.bytes),
            whole(sample.records),
            sample.rust.map_or("not judged".to_string(), |rust| grouped(rust.best)),
            grouped(sample.port[1].best),
            sample.ratio().map_or("-".to_string(), |ratio| format!("{ratio:.4}")),
            whole(*stack),
        ]);
    }
}

pub fn longest(sheets: &[Slow]) {
    let Some(Slow { sample, .. }) = sheets.iter().find(|slow| slow.sample.label == LONGEST) else {
        return;
    };
    let Sample { records, port, .. } = sample;
    let best = port.map(|Times { best, .. }| best);
    println!(
        "\nThe longest report, {} records ({LONGEST}): {} µs with room for 512 records, {} for 4,096, {} for all; all / 512: {:.3}.",
        whole(*records),
        grouped(best[0]),
        grouped(best[1]),
        grouped(best[2]),
        best[2] / best[0],
    );
}

pub fn growth(profiles: &[Growth]) {
    let columns =
        ["Profile", "KiB", "Sheets", "Records, mean", "Rust, µs", "Port, µs", "Rust, ns a byte", "Port, ns a byte", "Port / Rust"];
    title("Growth: means of best times, port with room for 4,096 records", &columns);
    for Growth { name, steps } in profiles {
        for step in steps {
            let bytes = (step.kib << 10) as f64;
            let (rust, port) = (step.rust(), step.port());
            let records = mean(&step.samples, |s| s.records as f64);
            let mut cells = vec![name.to_string(), step.kib.to_string(), whole(step.samples.len()), whole(records.round() as usize)];
            cells.extend([rust, port].map(grouped));
            cells.extend([rust, port].map(|us| format!("{:.2}", us * 1000.0 / bytes)));
            cells.push(format!("{:.4}", port / rust));
            row(&cells);
        }
    }
}

pub fn stack(threads: &Threads) {
    title("Stack of the deepest calls", &["Sheet", "By marks, bytes", "Least thread, KiB", "without the thread's own, KiB"]);
    for call in &threads.calls {
        row(&[call.about.clone(), whole(call.marks), whole(call.kib), whole(call.kib - threads.own)]);
    }
    println!(
        "\nThreads were tried in steps of 4 KiB. A thread of Rust's library needs {} KiB for itself: what one needs that writes over \
         200 KiB of its stack, less these.",
        threads.own
    );
}
