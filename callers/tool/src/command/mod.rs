pub mod arguments;
pub mod files;
pub mod output;
pub mod parallel;
pub mod run;
pub mod style;
