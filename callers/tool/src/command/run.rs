//! Runs a word on every sheet, with all cores, and prints what is said of each in the files' order.

use crate::command::arguments::{Form, Options, Word};
use crate::command::files::{self, Input};
use crate::command::output::{self, Output, tell};
use crate::command::parallel;
use crate::command::style::Style;
use crate::text::columns::seen;
use crate::text::names::Names;
use crate::words::{check, order, show};
use std::io::IsTerminal;
use std::ops::ControlFlow;
use tirvouez::Checker;

/// How a sheet is spoken of.
#[derive(Clone, Copy)]
pub struct Context<'a> {
    pub names: &'a Names,
    pub style: Style,
    pub form: Form,
}

/// What is said of a sheet.
pub struct Said {
    pub out: String,
    pub err: String,
    pub status: Status,
}

/// The exit status that one file asks for; of several the largest counts.
#[derive(Clone, Copy, Debug, PartialEq, Eq, PartialOrd, Ord)]
#[repr(u8)]
pub enum Status {
    Clean = 0,
    Diagnostics = 1,
    Refused = 2,
    Unread = 3,
    /// The command itself went wrong.
    Trouble = 4,
}

/// A thread's buffers.
struct Worker {
    checker: Checker,
    bytes: Vec<u8>,
}

pub fn run(options: &Options) -> Status {
    let names = match names(options) {
        Ok(names) => names,
        Err(fault) => {
            tell(&format!("tirvouez: {}\n", seen(&fault)));
            return Status::Unread;
        }
    };
    let coloured = matches!(options.form, Form::Words | Form::Brief) && std::io::stdout().is_terminal();
    let context = Context { names: &names, style: Style::of(coloured), form: options.form };
    let inputs = files::listed(&options.files);
    if options.form == Form::Rows && inputs.len() != 1 {
        tell("tirvouez: --rows is of one sheet, and there are more\n");
        return Status::Trouble;
    }
    let threads = std::thread::available_parallelism().map_or(1, |threads| threads.get());
    let mut output = match Output::new(inputs.len()) {
        Ok(output) => output,
        Err(error) => return output::ended(Some(error), Status::Clean),
    };
    let worker = || Worker { checker: Checker::new(), bytes: Vec::new() };
    let say = |worker: &mut Worker, input: &Input| said(options.word, &context, input, worker);
    parallel::in_order(&inputs, threads, worker, say, |said| match output.sheet(&said) {
        true => ControlFlow::Continue(()),
        false => ControlFlow::Break(()),
    });
    output.end(options.word == Word::Check && options.form != Form::Json && inputs.len() > 1)
}

fn names(options: &Options) -> Result<Names, String> {
    let Some(path) = &options.names else { return Ok(Names::default()) };
    let text = files::text(path).map_err(|why| format!("{}: cannot be read: {why}", path.display()))?;
    Names::read(&text).map_err(|fault| format!("{}: {fault}", path.display()))
}

fn said(word: Word, context: &Context, input: &Input, worker: &mut Worker) -> Said {
    let trouble = |why: String| {
        let err = format!("tirvouez: {}: cannot be read: {}\n", seen(&input.name()), seen(&why));
        Said { out: String::new(), err, status: Status::Unread }
    };
    if let Err(why) = input.read(&mut worker.bytes) {
        return trouble(why);
    }
    let answer = match worker.checker.check(&worker.bytes) {
        Ok(answer) => answer,
        Err(unreadable) => return trouble(unreadable.to_string()),
    };
    // data has the name as it is, JSON's escapes do the rest
    let file = if context.form == Form::Json { input.name() } else { seen(&input.name()) };
    match word {
        Word::Show => show::show(context, &file, &worker.bytes, answer),
        Word::Order => order::order(context, &file, &worker.bytes, answer),
        _ => check::check(context, &file, &worker.bytes, answer),
    }
}
