//! The files of a command line: `-` is standard input, a folder stands for the sheets in it. No more is read of a file than tells what it is.

use crate::sheet::MOST_BYTES;
use std::fs::{self, File};
use std::io::{self, Read};
use std::os::fd::AsFd;
use std::path::{Path, PathBuf};

pub enum Input {
    Standard,
    File(PathBuf),
    /// What cannot be read, and why.
    Trouble(PathBuf, String),
}

/// What a command line names, each folder's sheets by name.
pub fn listed(arguments: &[PathBuf]) -> Vec<Input> {
    arguments.iter().flat_map(|argument| if argument.as_os_str() == STANDARD { vec![Input::Standard] } else { one(argument) }).collect()
}

fn one(path: &Path) -> Vec<Input> {
    if !path.is_dir() {
        return vec![Input::File(path.to_owned())];
    }
    match sheets(path) {
        Ok(found) if found.is_empty() => vec![Input::Trouble(path.to_owned(), "the folder has no file that ends in .sheet".to_owned())],
        Ok(found) => found.into_iter().map(Input::File).collect(),
        Err(error) => vec![Input::Trouble(path.to_owned(), error.to_string())],
    }
}

fn sheets(folder: &Path) -> io::Result<Vec<PathBuf>> {
    let mut found = Vec::new();
    for entry in fs::read_dir(folder)? {
        let path = entry?.path();
        // nobody may write to a pipe, and a link may lead nowhere
        if ends_in(&path, ".sheet") && path.metadata().is_ok_and(|about| about.is_file()) {
            found.push(path);
        }
    }
    found.sort();
    Ok(found)
}

pub fn ends_in(path: &Path, end: &str) -> bool {
    path.as_os_str().as_encoded_bytes().ends_with(end.as_bytes())
}

impl Input {
    /// As it was given; what is no UTF-8 in it is replaced.
    pub fn name(&self) -> String {
        match self {
            Input::Standard => STANDARD.to_owned(),
            Input::File(path) | Input::Trouble(path, _) => path.to_string_lossy().into_owned(),
        }
    }

    /// Reads a sheet; of a longer file one byte more than a sheet can have.
    pub fn read(&self, bytes: &mut Vec<u8>) -> Result<(), String> {
        bytes.clear();
        let path = match self {
            Input::Standard => Path::new(STANDARD),
            Input::File(path) => path,
            Input::Trouble(_, why) => return Err(why.clone()),
        };
        limited(path, MOST_BYTES, bytes).map_err(|error| error.to_string())
    }
}

/// Standard input on a command line.
pub const STANDARD: &str = "-";

/// Reads one byte more than the most that is wanted.
pub fn limited(path: &Path, most: usize, bytes: &mut Vec<u8>) -> io::Result<()> {
    // a file, not std's reader, to which an input that can't be read is an empty one
    let file = if path.as_os_str() == STANDARD { File::from(io::stdin().as_fd().try_clone_to_owned()?) } else { File::open(path)? };
    // in one piece: most files are sheets, or no longer
    bytes.reserve(most.min(1 << 16) + 1);
    file.take(most as u64 + 1).read_to_end(bytes).map(drop)
}

/// A file of names, or of rows and items.
pub fn text(path: &Path) -> Result<String, String> {
    const MOST: usize = 1 << 24;
    let mut bytes = Vec::new();
    limited(path, MOST, &mut bytes).map_err(|error| error.to_string())?;
    if bytes.len() > MOST {
        return Err(format!("it has more than {MOST} bytes"));
    }
    String::from_utf8(bytes).map_err(|_| "it is no text in UTF-8".to_owned())
}
