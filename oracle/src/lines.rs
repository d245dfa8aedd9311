//! The source line of an error call, from a backtrace (feature `lines`).

use std::backtrace::Backtrace;

/// File name and line.
pub type Line = (String, u32);

/// Where one of the given files called `Errors::error`. The call inside
/// `Check::error` only passes on, so in check.rs it is the frame above.
pub(crate) fn caller() -> Line {
    let trace = Backtrace::force_capture().to_string();
    let mut frames = trace.lines().filter_map(given_file);
    let first = frames.next().expect("a call from a given file");
    match first.0.as_str() {
        "check.rs" => frames.next().expect("a caller of Check::error"),
        _ => first,
    }
}

/// `at ../docs/src/syntax/check.rs:80:21`
fn given_file(frame: &str) -> Option<Line> {
    let (_, place) = frame.split_once("docs/src/syntax/")?;
    let mut parts = place.split(':');
    let file = parts.next()?.to_owned();
    let line = parts.next()?.parse().ok()?;
    Some((file, line))
}
