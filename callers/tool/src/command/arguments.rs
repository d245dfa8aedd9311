//! The command line.

use std::ffi::{OsStr, OsString};
use std::os::unix::ffi::OsStrExt;
use std::path::PathBuf;

pub const HELP: &str = "\
tirvouez: what the bridge check says of a driver's sheet

  tirvouez check FILE...       each sheet's verdict, each diagnostic in words, and what must be Unpin
  tirvouez show FILE...        the sheet as text, its rows and items written like a bridge
  tirvouez order FILE...       the structs in order, with their tiers, and what each holds
  tirvouez make FILE.rows...   makes FILE.sheet of rows and items as text

A FILE is a sheet; - is standard input; a folder stands for its files that end in .sheet, by name.

  --names FILE    names in place of numbers, by a file of lines like `24 Point`
  --json          check, show, order: one object for each sheet, a line each
  --brief         check: the verdicts alone
  --rows          show: the lines that make reads
  --dot           order: a graph for Graphviz, cyclic fields in red
  --check         make: writes nothing, and fails where a sheet differs
  --output FILE   make, of one file: writes FILE; - is standard output
  --help, --version

Exit status, the largest that any file asks for:
  0   all is clean (of show, order and make: all is done)
  1   check: some sheet has a diagnostic; make --check: some sheet differs
  2   some sheet is refused
  3   a file cannot be read
  4   the command is not understood, or what it makes cannot be written
";

#[derive(Clone, Copy, Debug, Default, PartialEq, Eq)]
pub enum Word {
    #[default]
    Check,
    Show,
    Order,
    Make,
}

impl Word {
    fn text(self) -> &'static str {
        match self {
            Word::Check => "check",
            Word::Show => "show",
            Word::Order => "order",
            Word::Make => "make",
        }
    }
}

/// What a sheet's text is to be.
#[derive(Clone, Copy, Debug, Default, PartialEq, Eq)]
pub enum Form {
    #[default]
    Words,
    Brief,
    Json,
    Rows,
    Dot,
}

#[derive(Clone, Debug, Default, PartialEq, Eq)]
pub struct Options {
    pub word: Word,
    pub files: Vec<PathBuf>,
    pub names: Option<PathBuf>,
    pub form: Form,
    /// Of make: compare only.
    pub check: bool,
    pub output: Option<PathBuf>,
}

#[derive(Clone, Debug, PartialEq, Eq)]
pub enum Command {
    Run(Options),
    Help,
    Version,
}

/// An option with the words that have it.
const OPTIONS: [(&str, &[Word]); 7] = [
    ("--names", &[Word::Check, Word::Show, Word::Order]),
    ("--json", &[Word::Check, Word::Show, Word::Order]),
    ("--brief", &[Word::Check]),
    ("--rows", &[Word::Show]),
    ("--dot", &[Word::Order]),
    ("--check", &[Word::Make]),
    ("--output", &[Word::Make]),
];

pub fn parse(arguments: impl IntoIterator<Item = OsString>) -> Result<Command, String> {
    let mut arguments = arguments.into_iter();
    let first = arguments.next().ok_or("a word is missing: check, show, order or make")?;
    let words = [Word::Check, Word::Show, Word::Order, Word::Make];
    if let Some(word) = words.into_iter().find(|word| first == word.text()) {
        return options(word, arguments);
    }
    match first.to_str() {
        Some("help" | "--help" | "-h") => Ok(Command::Help),
        Some("--version" | "-V") => Ok(Command::Version),
        _ => Err(format!("`{}` is no word; first comes check, show, order or make", first.to_string_lossy())),
    }
}

fn options(word: Word, mut arguments: impl Iterator<Item = OsString>) -> Result<Command, String> {
    let mut made = Options { word, ..Options::default() };
    let mut ended = false;
    while let Some(argument) = arguments.next() {
        if ended || !argument.as_bytes().starts_with(b"-") || argument == "-" {
            made.files.push(argument.into());
            continue;
        }
        // a value as its bytes are: a file's name need be no text
        let (option, value) = match parted(argument.as_bytes()) {
            Some((option, value)) => (String::from_utf8_lossy(option), Some(OsStr::from_bytes(value).to_owned())),
            None => (argument.to_string_lossy(), None),
        };
        match (&option[..], value) {
            ("--", None) => ended = true,
            ("--help" | "-h", None) => return Ok(Command::Help),
            ("--version" | "-V", None) => return Ok(Command::Version),
            (option, value) => set(&mut made, option, value, &mut arguments)?,
        }
    }
    sensible(&made)?;
    Ok(Command::Run(made))
}

/// What stands before the first = and behind it.
fn parted(argument: &[u8]) -> Option<(&[u8], &[u8])> {
    let at = argument.iter().position(|byte| *byte == b'=')?;
    Some((&argument[..at], &argument[at + 1..]))
}

fn set(made: &mut Options, option: &str, value: Option<OsString>, rest: &mut impl Iterator<Item = OsString>) -> Result<(), String> {
    match OPTIONS.iter().find(|(name, _)| *name == option) {
        None => return Err(format!("there is no option {option}")),
        Some((_, words)) if !words.contains(&made.word) => return Err(format!("{option} is no option of {}", made.word.text())),
        _ => {}
    }
    let form = match option {
        "--names" => return set_file(&mut made.names, option, value.or_else(|| rest.next())),
        "--output" => return set_file(&mut made.output, option, value.or_else(|| rest.next())),
        _ if value.is_some() => return Err(format!("the option {option} has no value")),
        "--brief" => Form::Brief,
        "--json" => Form::Json,
        "--rows" => Form::Rows,
        "--dot" => Form::Dot,
        _ => {
            made.check = true;
            return Ok(());
        }
    };
    if made.form != Form::Words && made.form != form {
        return Err(format!("{option} does not go with the form before it"));
    }
    made.form = form;
    Ok(())
}

fn set_file(place: &mut Option<PathBuf>, option: &str, value: Option<OsString>) -> Result<(), String> {
    let value = value.ok_or_else(|| format!("the option {option} needs a file"))?;
    match place.replace(value.into()) {
        None => Ok(()),
        Some(_) => Err(format!("the option {option} is there twice")),
    }
}

/// What does not go together.
fn sensible(made: &Options) -> Result<(), String> {
    let is_standard = |file: &PathBuf| file.as_os_str() == "-";
    let standard = made.files.iter().filter(|file| is_standard(file)).count();
    let faults = [
        (made.files.is_empty(), "a file is missing; - is standard input"),
        (standard > 1, "standard input is one sheet"),
        (made.names.as_ref().is_some_and(is_standard), "names come from a file, not from standard input"),
        (made.check && standard > 0, "--check needs a file beside which the sheet is"),
        (made.output.is_some() && (made.files.len() != 1 || made.check), "--output is for one file, and not with --check"),
    ];
    faults.into_iter().find(|(wrong, _)| *wrong).map_or(Ok(()), |(_, fault)| Err(fault.to_owned()))
}
