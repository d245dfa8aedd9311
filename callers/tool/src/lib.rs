//! The makers' tool `tirvouez`: what the bridge check says of sheets, in words and as data.

/// The command line, files, cores and outputs.
pub mod command;
/// What stands in a sheet, and the reader.
pub mod sheet;
/// Sheets and answers as text.
pub mod text;
/// A file for each word of the command line.
pub mod words;
