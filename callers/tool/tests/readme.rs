//! README.md's first page: what it says that the tool prints is what the tool prints.

use std::path::Path;
use std::process::Command;

/// What the tool says of a sample.
fn said(sample: &str) -> String {
    let arguments = ["check", "--names", "samples/blade.names", sample];
    let run = Command::new(env!("CARGO_BIN_EXE_tirvouez"))
        .current_dir(Path::new(env!("CARGO_MANIFEST_DIR")).join("../.."))
        .args(arguments)
        .output()
        .unwrap();
    String::from_utf8(run.stdout).unwrap()
}

#[test]
fn first_page() {
    let page = std::fs::read_to_string(Path::new(env!("CARGO_MANIFEST_DIR")).join("../../README.md")).unwrap();
    let blocks: Vec<&str> = page.split("```").skip(1).step_by(2).collect();
    let printed: Vec<&str> = blocks.iter().filter_map(|block| block.strip_prefix("text\n")).collect();
    let [faulty, mended, ..] = printed[..] else { panic!("two texts that the tool prints") };
    assert_eq!(faulty.trim_end(), said("samples/blade.sheet").trim_end());
    assert_eq!(mended.trim_end(), said("samples/mended.sheet").trim_end());
}
