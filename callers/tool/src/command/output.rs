//! The two outputs, a line of progress, and the sum of what was found. A closed pipe ends the run without a word.

use crate::command::run::{Said, Status};
use crate::command::style;
use crate::text::number::Count;
use std::fs::File;
use std::io::{self, BufWriter, ErrorKind, IsTerminal, Write};
use std::os::fd::AsFd;
use std::time::{Duration, Instant};

/// Progress is shown as often as this.
const OFTEN: Duration = Duration::from_millis(100);
const ROOM: usize = 1 << 16;

pub struct Output {
    out: BufWriter<File>,
    /// Each sheet is shown at once.
    terminal: bool,
    files: usize,
    /// By status.
    counts: [usize; 5],
    worst: Status,
    /// When progress was shown last, where it is to be; and whether it stands there.
    progress: Option<Instant>,
    drawn: bool,
    failed: Option<io::Error>,
}

impl Output {
    pub fn new(files: usize) -> io::Result<Self> {
        let out = standard()?;
        let terminal = out.is_terminal();
        Ok(Self {
            out: BufWriter::with_capacity(ROOM, out),
            terminal,
            files,
            counts: [0; 5],
            worst: Status::Clean,
            progress: (files > 1 && io::stderr().is_terminal() && !style::dumb()).then(Instant::now),
            drawn: false,
            failed: None,
        })
    }

    /// Prints what is said of a sheet; false where nothing more can be printed.
    pub fn sheet(&mut self, said: &Said) -> bool {
        self.counts[said.status as usize] += 1;
        self.worst = self.worst.max(said.status);
        let at_once = self.terminal || !said.err.is_empty();
        if at_once {
            self.wipe();
        }
        let mut written = self.out.write_all(said.out.as_bytes());
        if at_once {
            written = written.and_then(|()| self.out.flush());
        }
        tell(&said.err);
        self.show_progress();
        self.failed = written.err();
        self.failed.is_none()
    }

    fn show_progress(&mut self) {
        if self.progress.is_some_and(|shown| shown.elapsed() >= OFTEN) {
            (self.progress, self.drawn) = (Some(Instant::now()), true);
            tell(&format!("\r\x1b[K{} of {} sheets", self.counts.iter().sum::<usize>(), self.files));
        }
    }

    /// Takes the line of progress away.
    fn wipe(&mut self) {
        if std::mem::take(&mut self.drawn) {
            tell("\r\x1b[K");
        }
    }

    /// What was found in all, if that is wanted; and the exit status.
    pub fn end(mut self, summary: bool) -> Status {
        self.wipe();
        if summary && self.failed.is_none() {
            self.failed = writeln!(self.out, "{}", sum(&self.counts)).err();
        }
        let failed = self.failed.take().or_else(|| self.out.flush().err());
        // what is left can't be written either
        drop(self.out.into_parts());
        ended(failed, self.worst)
    }
}

/// The exit status after the output ended so.
pub fn ended(failed: Option<io::Error>, found: Status) -> Status {
    match failed {
        Some(error) if error.kind() != ErrorKind::BrokenPipe => {
            tell(&format!("tirvouez: cannot write: {error}\n"));
            Status::Trouble
        }
        _ => found,
    }
}

/// Standard output as a file; to std's writer one that can't be written is as good as any.
fn standard() -> io::Result<File> {
    Ok(File::from(io::stdout().as_fd().try_clone_to_owned()?))
}

/// Prints a text or a sheet, and gives the exit status.
pub fn print(bytes: &[u8]) -> Status {
    ended(standard().and_then(|mut out| out.write_all(bytes)).err(), Status::Clean)
}

/// Writes on standard error; where that is closed nobody is there to be told.
pub fn tell(text: &str) {
    let _ = io::stderr().write_all(text.as_bytes());
}

fn sum(counts: &[usize; 5]) -> String {
    let [clean, diagnostics, refused, unread, _] = counts;
    let sheets = Count(clean + diagnostics + refused, "sheet");
    let mut text = format!("{sheets}: {clean} accepted and clean, {diagnostics} with diagnostics, {refused} refused");
    if *unread > 0 {
        text += &format!("; {} not read", Count(*unread, "file"));
    }
    text
}
