//! `tool PROGRAM COUNT [SEED]`: holds the makers' tool to the original Rust on generated sheets of every profile, each also with damage. Every
//! line of `check --json` is compared; `check` in words must come to the same verdicts without trouble; the tool's reader must stop where
//! the oracle's does; and what `show --rows` prints of an accepted sheet must make the same bytes.
//! `tool --time PROGRAM COUNT` times the tool on full sheets beside the calls alone.

mod time;

use compare::generated::{count, damage};
use oracle::generate::{PROFILES, Rng};
use oracle::judge::{Answer, Outcome, Reason, SETS, judge, with_texts};
use oracle::print;
use std::fmt::Write;
use std::fs;
use std::path::{Path, PathBuf};
use std::process::{Command, Output};
use tirvouez::Checker;
use tool::command::arguments::Form;
use tool::command::run::Context;
use tool::command::style::Style;
use tool::sheet::reader;
use tool::text::names::Names;
use tool::words::{check, make, order, show};

/// Sheets of one run of the program.
const FOLDER: usize = 500;

fn listed(numbers: impl IntoIterator<Item = usize>) -> String {
    numbers.into_iter().map(|number| number.to_string()).collect::<Vec<_>>().join(",")
}

fn unpin(reason: &Reason) -> String {
    match reason {
        Reason::Row(row) => format!("{{\"row\":{row}}}"),
        Reason::Item(item) => format!("{{\"item\":{item}}}"),
    }
}

/// The line of an accepted sheet, without its file.
fn accepted(sheet: &[u8], answer: &Answer) -> String {
    let mut line = format!("\"accepted\":true,\"total\":{},\"sets\":{{", answer.records.len());
    let sets = SETS.iter().zip(&answer.sets).map(|(name, set)| (name.replace('-', "_"), print::members(set)));
    line += &sets.map(|(name, members)| format!("\"{name}\":[{}]", listed(members))).collect::<Vec<_>>().join(",");
    let reasons = answer.reasons.iter().enumerate().filter(|(_, count)| **count > 0);
    let reasons = reasons.map(|(name, count)| format!("\"{name}\":{count}")).collect::<Vec<_>>().join(",");
    let unpin = answer.unpin.iter().enumerate().filter_map(|(name, reason)| Some(format!("\"{name}\":{}", unpin(reason.as_ref()?))));
    let unpin = unpin.collect::<Vec<_>>().join(",");
    let tiers = answer.order.iter().map(|&item| usize::from(answer.tiers[usize::from(item)]));
    let order = answer.order.iter().map(|&item| usize::from(item));
    write!(line, "}},\"reasons\":{{{reasons}}},\"unpin\":{{{unpin}}},").unwrap();
    write!(line, "\"order\":[{}],\"tiers\":[{}],\"records\":[", listed(order), listed(tiers)).unwrap();
    for (number, (record, text)) in with_texts(sheet).iter().enumerate() {
        let letter = char::from(record.letter);
        let second = if "RIO".contains(letter) { String::new() } else { format!(",{}", record.second) };
        let text = text.replace('\\', "\\\\").replace('"', "\\\"");
        line += if number > 0 { "," } else { "" };
        let (message, first, detail) = (record.message, record.first, record.detail);
        let numbers = format!("[{first}{second}]");
        write!(line, "{{\"message\":{message},\"place\":\"{letter}\",\"numbers\":{numbers},\"detail\":{detail},\"text\":\"{text}\"}}")
            .unwrap();
    }
    line + "]"
}

/// None for the sheets that the Rust does not judge.
fn expected(file: &Path, sheet: &[u8]) -> Option<String> {
    let rest = match judge(sheet) {
        Outcome::TooLarge => return None,
        Outcome::Refused(refusal) => {
            format!("\"accepted\":false,\"refusal\":{},\"position\":{}", refusal.number, refusal.position)
        }
        Outcome::Accepted(answer) => accepted(sheet, &answer),
    };
    Some(format!("{{\"file\":\"{}\",{rest}}}", file.display()))
}

/// What the tool's own reader and writer make of a sheet; every form of every word, also of sheets that the Rust does not judge.
fn in_process(sheet: &[u8], checker: &mut Checker, names: &Names) -> Result<(), String> {
    let answer = checker.check(sheet).map_err(|fault| fault.to_string())?;
    let fault = reader::read(sheet).1.map(|fault| (fault.number, fault.position as u32));
    if answer.verdict().err() != fault {
        return Err(format!("the library says {:?}, the tool's reader {fault:?}", answer.verdict()));
    }
    let context = |form: Form| Context { names, style: Style::default(), form };
    for form in [Form::Words, Form::Brief, Form::Json, Form::Rows, Form::Dot] {
        for said in [check::check, show::show, order::order].map(|word| word(&context(form), "", sheet, answer)) {
            if said.out.len() > 100_000 + 2_000 * (sheet.len() + answer.total()) {
                return Err(format!("{} bytes are said of it", said.out.len()));
            }
        }
    }
    let rows = show::show(&context(Form::Rows), "", sheet, answer).out;
    match make::sheet(&rows) {
        Ok(made) if made == sheet || fault.is_some() => Ok(()),
        Ok(_) => Err("show --rows and make give other bytes".to_owned()),
        Err(fault) => Err(format!("make does not read what show --rows prints: {fault}")),
    }
}

fn run(program: &str, arguments: &[&str], folder: &Path) -> Output {
    let run = Command::new(program).args(arguments).arg(folder).output().expect("the program");
    assert!(matches!(run.status.code(), Some(0..=2)), "{arguments:?}: {}", run.status);
    assert!(run.stderr.is_empty(), "{arguments:?}: {}", String::from_utf8_lossy(&run.stderr));
    run
}

/// Compares the sheets of a folder; gives how many are accepted, refused, and their records.
fn compare(program: &str, folder: &Path, sheets: &[(PathBuf, String)]) -> [usize; 3] {
    let data = run(program, &["check", "--json"], folder).stdout;
    let data = String::from_utf8(data).expect("text");
    let lines: Vec<&str> = data.lines().collect();
    assert_eq!(lines.len(), sheets.len(), "lines");
    for (line, (file, expected)) in lines.iter().zip(sheets) {
        if line != expected {
            let at = line.bytes().zip(expected.bytes()).take_while(|(a, b)| a == b).count();
            let part = |text: &str| String::from_utf8_lossy(&text.as_bytes()[at.saturating_sub(40)..text.len().min(at + 80)]).into_owned();
            panic!("DIFFERS: {} at {at}: {} is not {}", file.display(), part(line), part(expected));
        }
    }
    let words = String::from_utf8(run(program, &["check"], folder).stdout).expect("text");
    let verdicts = |what: &str| words.lines().filter(|line| line.contains(&format!(".sheet: {what}"))).count();
    let refused = sheets.iter().filter(|(_, line)| line.contains("\"accepted\":false")).count();
    assert_eq!((verdicts("accepted"), verdicts("refused")), (sheets.len() - refused, refused), "verdicts in words");
    [sheets.len() - refused, refused, data.matches("{\"message\":").count()]
}

/// The generated sheets that wait in a folder for the program.
struct Waiting<'a> {
    program: &'a str,
    folder: PathBuf,
    sheets: Vec<(PathBuf, String)>,
    /// Accepted, refused, records.
    sums: [usize; 3],
}

impl Waiting<'_> {
    /// Sheets that the Rust does not judge do not wait.
    fn add(&mut self, sheet: &[u8]) {
        let file = self.folder.join(format!("{:06}.sheet", self.sheets.len()));
        if let Some(expected) = expected(&file, sheet) {
            fs::create_dir_all(&self.folder).expect("a folder");
            fs::write(&file, sheet).expect("a file");
            self.sheets.push((file, expected));
        }
    }

    fn compare(&mut self) {
        if !self.sheets.is_empty() {
            let found = compare(self.program, &self.folder, &self.sheets);
            self.sums.iter_mut().zip(found).for_each(|(sum, found)| *sum += found);
            fs::remove_dir_all(&self.folder).expect("a folder");
            self.sheets.clear();
        }
    }
}

fn generated(program: &str, most: u64, seed: u64) {
    let folder = std::env::temp_dir().join(format!("tirvouez-tool-{}", std::process::id()));
    let mut waiting = Waiting { program, folder, sheets: Vec::new(), sums: [0; 3] };
    let (mut checker, names) = (Checker::new(), Names::default());
    for profile in &PROFILES {
        for number in 0..count(profile, most) {
            let rng = &mut Rng::new(seed ^ 0x700C, number);
            let good = profile.sheet(seed, number);
            let bad = damage(good.clone(), rng);
            for (sheet, how) in [(good, "as made"), (bad, "damaged")] {
                if let Err(fault) = in_process(&sheet, &mut checker, &names) {
                    panic!("DIFFERS: {} seed {seed} number {number} {how}: {fault}", profile.name);
                }
                waiting.add(&sheet);
            }
            if waiting.sheets.len() >= FOLDER {
                waiting.compare();
            }
        }
    }
    waiting.compare();
    let [accepted, refused, records] = waiting.sums;
    println!(
        "{} sheets through the makers' tool: {accepted} accepted, {refused} refused, {records} records: no difference",
        accepted + refused
    );
}

fn main() {
    let args: Vec<String> = std::env::args().skip(1).collect();
    match &args[..] {
        [option, program, count] if option == "--time" => time::time(program, count.parse().expect("a count")),
        [program, count] => generated(program, count.parse().expect("a count"), 1),
        [program, count, seed] => generated(program, count.parse().expect("a count"), seed.parse().expect("a seed")),
        _ => println!("usage: tool PROGRAM COUNT [SEED] | tool --time PROGRAM COUNT"),
    }
}
