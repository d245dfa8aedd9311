//! `tirvouez make`: a sheet of rows and items as text. Each line is `row` or `item` and the pairs of its body, in decimal; what follows a # is
//! not read. The contents (how many rows and items, and the place of each body) are worked out here. What the pairs mean is not asked: a
//! sheet that will be refused can be made too.

use crate::command::arguments::Options;
use crate::command::files;
use crate::command::output::{self, tell};
use crate::command::run::Status;
use crate::sheet::MOST_BYTES;
use crate::text::columns::seen;
use crate::text::number::digits;
use std::ffi::OsString;
use std::os::unix::ffi::OsStringExt;
use std::path::{Path, PathBuf};

pub fn run(options: &Options) -> Status {
    options.files.iter().map(|file| one(options, file)).max().unwrap_or(Status::Clean)
}

/// Makes, or compares, the sheet of one file.
fn one(options: &Options, file: &Path) -> Status {
    let fault = |path: &Path, what: &str, status: Status| {
        tell(&format!("tirvouez: {}\n", seen(&format!("{}: {what}", path.display()))));
        status
    };
    let Some(target) = options.output.clone().or_else(|| target(file)) else {
        return fault(file, "the name does not end in .rows; --output says where the sheet goes", Status::Trouble);
    };
    let made = match files::text(file) {
        Ok(text) => sheet(&text),
        Err(why) => return fault(file, &format!("cannot be read: {why}"), Status::Unread),
    };
    let made = match made {
        Ok(made) => made,
        Err(what) => return fault(file, &what, Status::Unread),
    };
    if target == file && target.as_os_str() != files::STANDARD {
        return fault(file, "the sheet would be written over it", Status::Trouble);
    }
    if options.check {
        let mut bytes = Vec::new();
        return match files::limited(&target, MOST_BYTES, &mut bytes) {
            Ok(()) if bytes == made => Status::Clean,
            Ok(()) => fault(&target, &format!("it differs from what {} makes", file.display()), Status::Diagnostics),
            Err(error) => fault(&target, &format!("cannot be read: {error}"), Status::Unread),
        };
    }
    if target.as_os_str() == files::STANDARD {
        return output::print(&made);
    }
    match std::fs::write(&target, &made) {
        Ok(()) => Status::Clean,
        Err(error) => fault(&target, &format!("cannot be written: {error}"), Status::Trouble),
    }
}

/// Where a file's sheet goes: beside it; of standard input to standard output.
fn target(file: &Path) -> Option<PathBuf> {
    if file.as_os_str() == files::STANDARD {
        return Some(file.to_owned());
    }
    let mut name = file.as_os_str().as_encoded_bytes().strip_suffix(b".rows")?.to_vec();
    name.extend(b".sheet");
    Some(PathBuf::from(OsString::from_vec(name)))
}

/// The sheet of a text.
pub fn sheet(text: &str) -> Result<Vec<u8>, String> {
    let (mut rows, mut items) = (Vec::new(), Vec::new());
    for (number, line) in text.strip_prefix('\u{feff}').unwrap_or(text).lines().enumerate() {
        let mut words = line.split('#').next().unwrap_or_default().split_whitespace();
        let fault = |what: String| format!("line {}: {what}", number + 1);
        let bodies = match words.next() {
            None => continue,
            Some("row") => &mut rows,
            Some("item") => &mut items,
            Some(word) => return Err(fault(format!("it begins with `{}`, not with `row` or `item`", word.escape_debug()))),
        };
        bodies.push(words.map(pair).collect::<Result<Vec<u16>, String>>().map_err(fault)?);
    }
    assemble(&rows, &items)
}

fn pair(word: &str) -> Result<u16, String> {
    let pair = digits(word).and_then(|pair| u16::try_from(pair).ok());
    pair.ok_or_else(|| format!("`{}` is no pair, which is 0 to 65535", word.escape_debug()))
}

fn assemble(rows: &[Vec<u16>], items: &[Vec<u16>]) -> Result<Vec<u8>, String> {
    let bodies = || rows.iter().chain(items);
    let contents = 4 + 2 * bodies().count();
    let length = contents + bodies().map(|body| 2 * body.len()).sum::<usize>();
    if length > MOST_BYTES {
        return Err(format!("it makes {length} bytes, and a sheet has at most {MOST_BYTES}"));
    }
    let mut pairs = vec![rows.len(), items.len()];
    let mut at = contents;
    for body in bodies() {
        pairs.push(at);
        at += 2 * body.len();
    }
    // below 65,536: no number here is larger than the sheet
    let contents = pairs.into_iter().map(|pair| pair as u16);
    Ok(contents.chain(bodies().flatten().copied()).flat_map(u16::to_le_bytes).collect())
}
