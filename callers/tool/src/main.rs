//! `tirvouez`, the makers' tool: see `tirvouez --help`, or docs/TOOL.md.

use std::process::ExitCode;
use tool::command::arguments::{self, Command, HELP, Word};
use tool::command::output::{self, tell};
use tool::command::run::{self, Status};
use tool::text::columns::seen;
use tool::words::make;

fn main() -> ExitCode {
    let status = match arguments::parse(std::env::args_os().skip(1)) {
        Ok(Command::Run(options)) if options.word == Word::Make => make::run(&options),
        Ok(Command::Run(options)) => run::run(&options),
        Ok(Command::Help) => output::print(HELP.as_bytes()),
        Ok(Command::Version) => output::print(format!("tirvouez, of cxx-build 1.0.205; layout version {}\n", tirvouez::VERSION).as_bytes()),
        Err(fault) => {
            tell(&format!("tirvouez: {}\nTry `tirvouez --help`.\n", seen(&fault)));
            Status::Trouble
        }
    };
    ExitCode::from(status as u8)
}
