//! Colours, where they are wanted.

/// Codes of a terminal; all empty where there are to be none.
#[derive(Clone, Copy, Default)]
pub struct Style {
    pub bold: &'static str,
    pub error: &'static str,
    pub good: &'static str,
    pub frame: &'static str,
    pub end: &'static str,
}

impl Style {
    /// For a terminal, unless NO_COLOR is set (no-color.org) or the terminal is dumb.
    pub fn of(terminal: bool) -> Self {
        if !terminal || dumb() || std::env::var_os("NO_COLOR").is_some_and(|value| !value.is_empty()) {
            return Self::default();
        }
        Self { bold: "\x1b[1m", error: "\x1b[1;31m", good: "\x1b[32m", frame: "\x1b[1;34m", end: "\x1b[0m" }
    }
}

/// Whether the terminal knows no codes.
pub fn dumb() -> bool {
    std::env::var_os("TERM").is_some_and(|term| term == "dumb")
}
