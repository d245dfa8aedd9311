//! The program as its users run it: what it prints where, and how it ends.

use std::ffi::{OsStr, OsString};
use std::io::Write;
use std::os::unix::ffi::{OsStrExt, OsStringExt};
use std::path::{Path, PathBuf};
use std::process::{Command, Output, Stdio};

fn repository() -> PathBuf {
    Path::new(env!("CARGO_MANIFEST_DIR")).join("../..")
}

fn command(arguments: &[&str]) -> Command {
    let mut command = Command::new(env!("CARGO_BIN_EXE_tirvouez"));
    command.current_dir(repository()).args(arguments);
    command
}

/// Exit status, standard output and standard error.
fn run(arguments: &[&str]) -> (i32, String, String) {
    ended(command(arguments).output().unwrap())
}

fn ended(run: Output) -> (i32, String, String) {
    let text = |bytes: Vec<u8>| String::from_utf8(bytes).unwrap();
    (run.status.code().unwrap(), text(run.stdout), text(run.stderr))
}

fn piped(arguments: &[&str], input: &[u8]) -> Output {
    let mut child = command(arguments).stdin(Stdio::piped()).stdout(Stdio::piped()).stderr(Stdio::piped()).spawn().unwrap();
    child.stdin.take().unwrap().write_all(input).ok();
    child.wait_with_output().unwrap()
}

fn with_input(arguments: &[&str], input: &[u8]) -> (i32, String, String) {
    ended(piped(arguments, input))
}

/// A folder of its own for a test, empty.
fn folder(name: &str) -> PathBuf {
    let folder = std::env::temp_dir().join(format!("tirvouez-{}-{name}", std::process::id()));
    std::fs::remove_dir_all(&folder).ok();
    std::fs::create_dir_all(&folder).unwrap();
    folder
}

const WORKED: &str = "samples/worked.sheet: accepted, 2 diagnostics

error[2]: unsupported cyclic data structure
 --> field 0 of item 1
  | struct n25 { f0: n25 }
  |              ^^^^^^^

error[2]: unsupported cyclic data structure
 --> field 0 of item 0
  | struct n24 { f0: n25 }
  |              ^^^^^^^

";

const REFUSED: &str = "samples/refused.sheet: refused 7 at 12
 --> row 0 (RustBox), inner row
  | found 1, expected a row before row 0, and there is none
  |
  | byte      4      6      8     10     12     14     16     18     20     22
  | hex   0a 00  0e 00  12 00  01 00  01 00  00 00  18 00  01 00  18 00  00 00
  | pair     10     14     18      1      1      0     24      1     24      0
  |                                   ^^^^^

";

#[test]
fn verdicts_and_statuses() {
    let clean = "samples/cutter.sheet: accepted\n";
    assert_eq!(run(&["check", "samples/cutter.sheet"]), (0, clean.to_owned(), String::new()));
    assert_eq!(run(&["check", "samples/worked.sheet"]), (1, WORKED.to_owned(), String::new()));
    assert_eq!(run(&["check", "samples/refused.sheet"]), (2, REFUSED.to_owned(), String::new()));
    let unread = "tirvouez: samples/none.sheet: cannot be read: No such file or directory (os error 2)\n";
    assert_eq!(run(&["check", "samples/none.sheet"]), (3, String::new(), unread.to_owned()));
    // all of them: in the files' order, and the largest status
    let files = ["samples/worked.sheet", "samples/none.sheet", "samples/refused.sheet", "samples/cutter.sheet"];
    let sum = "3 sheets: 1 accepted and clean, 1 with diagnostics, 1 refused; 1 file not read\n";
    let (status, out, err) = run(&[&["check"], &files[..]].concat());
    assert_eq!((status, out, err), (3, format!("{WORKED}{REFUSED}{clean}{sum}"), unread.to_owned()));
    assert_eq!(run(&["check", "--brief", "samples/worked.sheet"]).1, WORKED.lines().next().unwrap().to_owned() + "\n");
}

#[test]
fn standard_input_and_folders() {
    let worked = std::fs::read(repository().join("samples/worked.sheet")).unwrap();
    assert_eq!(with_input(&["check", "-"], &worked), (1, WORKED.replace("samples/worked.sheet", "-"), String::new()));
    let (status, out, _) = with_input(&["check", "-"], &[0; 40_000]);
    assert_eq!((status, out.lines().next()), (2, Some("-: refused 2 at 0")));
    assert_eq!(with_input(&["check", "-"], &[]).1.lines().next(), Some("-: refused 3 at 0"));
    let sheets: Vec<String> = run(&["check", "--brief", "samples"]).1.lines().map(str::to_owned).collect();
    assert!(sheets.len() > 6 && sheets[0].starts_with("samples/blade.sheet: accepted, 5"), "{sheets:?}");
    let empty = folder("empty");
    let (status, out, err) = run(&["check", empty.to_str().unwrap()]);
    assert_eq!((status, &out[..]), (3, ""));
    assert!(err.ends_with("the folder has no file that ends in .sheet\n"), "{err}");
    std::fs::remove_dir_all(empty).unwrap();
}

#[test]
fn where_the_sheet_ends() {
    let (_, out, _) = with_input(&["check", "-"], &[1, 0, 0, 0, 6, 0, 0]);
    let expected = "-: refused 5 at 7
 --> row 0, kind
  | expected a kind of row, 0 (Ident) to 13 (Void); the sheet ends before
  |
  | byte      0      2      4      6      7
  | hex   01 00  00 00  06 00  00
  | pair      1      0      6
  |                                   ^ the sheet ends here

";
    assert_eq!(out, expected);
}

#[test]
fn texts_of_sheets() {
    let shown = run(&["show", "--names", "samples/cutter.names", "samples/cutter.sheet"]).1;
    let lines: Vec<&str> = shown.lines().collect();
    assert_eq!((lines[0], lines.len()), ("samples/cutter.sheet: 17 rows, 13 items", 32));
    for line in [
        "row 16: CxxVector<Point>",
        "item 1: #[derive(Clone, Copy)] struct Point { f0: i32, f1: i32 }",
        "item 4: #[repr(u8)] enum Speed { /* 3 variants, 0 default */ }",
        "item 8: extern \"C++\" fn cut(self: Pin<&mut Cutter>, a0: &Job)",
        "item 10: extern \"Rust\" fn jobs(self: &Plan) -> Vec<Job>",
        "item 12: impl CxxVector<Point> {}",
    ] {
        assert!(lines.contains(&line), "{line}");
    }
    let refused = run(&["show", "samples/refused.sheet"]);
    assert_eq!(refused.0, 2);
    assert!(refused.1.starts_with("samples/refused.sheet: refused 7 at 12 after 0 rows, 0 items\n --> row 0 (RustBox), inner row\n"));
    // rows are data, and what is wrong goes elsewhere
    let rows = run(&["show", "--rows", "samples/refused.sheet"]);
    assert_eq!(rows, (2, String::new(), "samples/refused.sheet: refused 7 at 12\n".to_owned()));
}

#[test]
fn every_kind_of_item() {
    let rows = "row 0 2\nrow 11 4 0\nrow 0 25\nrow 0 27\nrow 3 3\nrow 12 3 0 2 0 1\nrow 8 1 0\nrow 7 2 0\nrow 10 1 0\nrow 13\n\
        item 0\nitem 1 24 1 0 0 2 2 1\nitem 1 25 0 0 0\nitem 2 26 0 1 3 0 0 1 1\nitem 3 27 1 3 0 3\nitem 4 28 0 0 1\n\
        item 5 30 2 0 2 27 3 4 0\nitem 5 31 5 2 1 2 1 24 65535 2 5 6\nitem 6 32 1 0 2 23 1 9 1 7\nitem 7 33 0 2 0 1\nitem 8 4 1 1 7\n";
    let sheet = piped(&["make", "--output", "-", "-"], rows.as_bytes()).stdout;
    let shown = with_input(&["show", "-"], &sheet);
    let expected = "-: 10 rows, 11 items
row 0: u8
row 1: [u8; 4]
row 2: n25
row 3: n27
row 4: UniquePtr<n27>
row 5: unsafe fn(u8, [u8; 4]) -> Result<u8>
row 6: *mut u8
row 7: Pin<&u8>
row 8: &mut [u8]
row 9: ()
item 0: include!(..)
item 1: struct n24<'static> { f0: n25, f1: [u8; 4] }
item 2: struct n25 {}
item 3: #[derive(Default)] enum n26 /* u8 */ { /* 1 variant, 1 default */ }
item 4: unsafe extern \"C++\" type n27<'l3>: ..
item 5: unsafe extern \"Rust\" type n28
item 6: unsafe extern \"C++\" fn n30(self: Pin<&mut n27>) -> UniquePtr<n27>
item 7: #[Self = \"n24\"] extern \"C++-unwind\" unsafe fn n31<'l1, 'l2>(a0: unsafe fn(u8, [u8; 4]) -> Result<u8>, a1: *mut u8)
item 8: extern \"Rust\" unsafe fn n32(self: &mut Self, a0: Pin<&u8>) -> ()
item 9: #[derive(Clone, Copy)] extern \"C++\" type n33 = ..
item 10: impl<'l7> !UniquePtr<n27> {}

";
    assert_eq!(shown.1, expected);
}

/// The line with a diagnostic's declaration, its marks and what follows, of a sheet as rows.
fn declared(rows: &str, error: &str) -> String {
    let sheet = piped(&["make", "-"], rows.as_bytes()).stdout;
    let out = with_input(&["check", "-"], &sheet).1;
    let block = out.split("\n\n").find(|block| block.starts_with(error)).unwrap_or_else(|| panic!("{out}"));
    block.lines().skip(2).map(|line| line.to_owned() + "\n").collect()
}

#[test]
fn the_part_that_is_meant() {
    // the row, not another with its text in it
    let rows = "row 0 24\nrow 7 3 0\nrow 7 1 0\nrow 12 0 65535 2 1 2\nitem 3 24 0 0 1\nitem 5 25 2 0 0 65535 1 3";
    let line = "  | unsafe extern \"C++\" fn n25(a0: fn(Pin<&mut n24>, &mut n24))\n";
    assert_eq!(declared(rows, "error[18]"), format!("{line}  | {}^^^^^^^^\n", " ".repeat(49)));
    // the first item that comes to a row, not another that uses it
    let rows = "row 0 99\nrow 2 0\nitem 0\nitem 1 24 0 0 1 1\nitem 1 25 0 0 1 0";
    assert_eq!(declared(rows, "error[3]"), "  | struct n24 { f0: Vec<n99> }\n  |                      ^^^\n");
    // the arguments of a function's type
    let rows = "row 9\nrow 8 0 0\nrow 12 0 65535 3 1 0 1\nitem 1 24 0 0 1 2";
    let line = "  | struct n24 { f0: fn(*const &str, &str, *const &str) }\n  |                     ^^^^^^^^^^^        ^^^^^^^^^^^\n";
    assert_eq!(declared(rows, "error[26]"), line);
    // the row of an impl, a receiver, a self type, bounds, a return
    assert_eq!(declared("row 9\nitem 8 0 0 0", "error[55]"), "  | impl &str {}\n  |      ^^^^\n");
    assert_eq!(
        declared("item 5 24 0 0 2 25 1 65535 0", "error[43]"),
        "  | extern \"C++\" fn n24(self: &mut n25)\n  |                     ^^^^^^^^^^^^^^\n"
    );
    assert_eq!(declared("item 6 24 0 0 1 25 65535 0", "error[46]"), "  | #[Self = \"n25\"] extern \"Rust\" fn n24()\n  |           ^^^\n");
    assert_eq!(declared("item 4 24 0 0 2", "error[37]"), "  | extern \"Rust\" type n24: ..\n  |                         ^^\n");
    let rows = "row 9\nrow 7 1 0\nitem 5 24 0 0 0 1 0";
    assert_eq!(declared(rows, "error[56]"), "  | extern \"C++\" fn n24() -> &mut &str\n  |                          ^^^^^^^^^\n");
}

#[test]
fn what_is_long() {
    // a type that is written by its number, and one inside it
    let rows = "row 0 24\nrow 2 0\nrow 12 2 65535 8 1 1 1 1 1 1 1 1\nitem 3 24 0 0 1\nitem 5 25 2 0 0 65535 1 2";
    let whole = "fn(Vec<n24>, Vec<n24>, Vec<n24>, Vec<n24>, Vec<n24>, Vec<n24>, Vec<n24>, Vec<n24>) -> Result<()>";
    let line = format!("  | unsafe extern \"C++\" fn n25(a0: #2)\n  | {}^^\n", " ".repeat(31));
    assert_eq!(declared(rows, "error[25]"), line);
    assert_eq!(declared(rows, "error[6]"), format!("{line}  = #2 is `{whole}`\n"));
    let sheet = piped(&["make", "-"], rows.as_bytes()).stdout;
    assert!(with_input(&["check", "-"], &sheet).1.contains(&format!(" --> row 2, `{whole}`, in argument 0 of item 1\n")));
    let rows = "row 0 14\nrow 6 0\nrow 12 0 65535 5 1 1 1 1 1\nitem 1 24 0 0 2 2 2";
    let line = "  | struct n24 { f0: #2, f1: #2 }\n  |              ^^^^^^  ^^^^^^\n";
    let whole = format!("fn({})", ["CxxVector<CxxString>"; 5].join(", "));
    assert_eq!(declared(rows, "error[31]"), format!("{line}  = #2 is `{whole}`\n"));
    // a line of eighty columns is shown whole, of a wider one the fields that are meant
    let rows = |fields: &str| format!("row 0 2\nrow 13\nrow 0 6\nrow 0 13\nitem 1 24 0 0 {fields}");
    let line = "  | struct n24 { f0: usize, f1: usize, f2: f64, f3: u8, f4: u8, f5: u8, f6: () }\n";
    assert_eq!(line.len(), 81);
    assert_eq!(declared(&rows("7 2 2 3 0 0 0 1"), "error[32]"), format!("{line}  | {}^^^^^^\n", " ".repeat(68)));
    let line = "  | struct n24 { ..., f6: () }\n  |                   ^^^^^^\n";
    assert_eq!(declared(&rows("7 2 2 3 3 0 0 1"), "error[32]"), line);
    let line = "  | struct n24 { f0: (), f1: (), ..., f7: (), ... }\n  |              ^^^^^^  ^^^^^^       ^^^^^^\n";
    assert_eq!(declared(&rows("9 1 1 0 0 0 0 0 1 0"), "error[32]"), line);
}

#[test]
fn numbers_of_several_parts() {
    let place = |fields: &str| {
        let sheet = piped(&["make", "-"], format!("row 0 2\nrow 13\nitem 1 24 0 0 {fields}").as_bytes()).stdout;
        with_input(&["check", "-"], &sheet).1.lines().nth(3).map(str::to_owned)
    };
    for (fields, numbers) in [("2 0 1", "field 1"), ("3 1 1 0", "fields 0, 1"), ("7 1 0 1 1 1 0 1", "fields 0, 2 to 4, 6")] {
        assert_eq!(place(fields), Some(format!(" --> {numbers} of item 0")));
    }
    // as many of the fields that are meant as eighty columns hold, with dots for the others
    let line = |fields: &str| declared(&format!("row 0 2\nrow 13\nitem 1 24 0 0 {fields}"), "error[32]").lines().next().map(str::to_owned);
    let four = "  | struct n24 { f0: (), ..., f2: (), ..., f4: (), ..., f6: (), ... }";
    assert_eq!(line("10 1 0 1 0 1 0 1 0 1 0").as_deref(), Some(four));
    let five = "  | struct n24 { f0: (), ..., f2: (), ..., f4: (), ..., f6: (), ..., f8: () }";
    assert_eq!(line("9 1 0 1 0 1 0 1 0 1").as_deref(), Some(five));
}

#[test]
fn every_record_is_told() {
    // message 4 of a Box in a Vec comes twice
    let rows = "row 0 24\nrow 1 0\nrow 2 1\nitem 3 24 0 0 1\nitem 5 25 2 0 0 65535 1 2";
    let sheet = piped(&["make", "-"], rows.as_bytes()).stdout;
    let (_, out, _) = with_input(&["check", "-"], &sheet);
    assert!(out.starts_with("-: accepted, 3 diagnostics\n"), "{out}");
    assert_eq!(out.matches("error[").count(), 3, "{out}");
}

/// Two aliases, a slice of one and a reference to the other, which is an argument of a function pointer.
const MOVED: &str =
    "row 0 27\nrow 10 1 0\nrow 0 26\nrow 7 1 2\nrow 12 0 65535 1 3\nitem 7 27 0 0\nitem 7 26 0 0\nitem 5 32 0 0 0 65535 2 1 4\n";

#[test]
fn names_that_must_be_unpin() {
    let sheet = |rows: &str| piped(&["make", "-"], rows.as_bytes()).stdout;
    let moved = sheet(MOVED);
    // of a clean sheet too, which stays clean
    let reference = "must be Unpin: n26, because of row 3 (reference `&mut n26` in argument 1 of item 2)\n";
    let slice = "must be Unpin: n27, because of row 1 (slice `&mut [n27]` in argument 0 of item 2)\n";
    assert_eq!(with_input(&["check", "-"], &moved), (0, format!("-: accepted\n\n{reference}{slice}\n"), String::new()));
    assert_eq!(with_input(&["check", "--brief", "-"], &moved), (0, "-: accepted\n".to_owned(), String::new()));
    let sum = "2 sheets: 2 accepted and clean, 0 with diagnostics, 0 refused\n";
    let both = format!("-: accepted\n\n{reference}{slice}\nsamples/cutter.sheet: accepted\n{sum}");
    assert_eq!(with_input(&["check", "-", "samples/cutter.sheet"], &moved), (0, both, String::new()));
    // a method stands after a slice; and names of a file
    let cut = sheet(&format!("{MOVED}item 5 31 0 0 2 27 1 65535 0\n"));
    let method = "must be Unpin: Cutter, because of item 3 (method `cut` with `self: &mut Cutter`)\n";
    let named = with_input(&["check", "--names", "samples/cutter.names", "-"], &cut).1;
    assert_eq!(named, format!("-: accepted\n\n{}{method}\n", reference.replace("n26", "Speed")));
    let data = with_input(&["check", "--json", "--names", "samples/cutter.names", "-"], &cut).1;
    assert!(data.contains(",\"unpin\":{\"26\":{\"row\":3},\"27\":{\"item\":3}},\"order\":[]"), "{data}");
    // after the diagnostics
    let pinned = sheet("item 3 27 0 0 0\nitem 6 31 0 0 2 27 1 65535 0\n");
    let (status, out, _) = with_input(&["check", "-"], &pinned);
    let blocks: Vec<&str> = out.split("\n\n").collect();
    assert!(status == 1 && blocks[0] == "-: accepted, 1 diagnostic" && blocks[1].starts_with("error[44]: "), "{out}");
    assert_eq!(blocks[2..], ["must be Unpin: n27, because of item 1 (method `n31` with `self: &mut n27`)", ""]);
}

#[test]
fn orders() {
    let cycle = run(&["order", "samples/cycle.sheet"]).1;
    assert!(
        cycle.contains("5. item 0 n27, tier 255 (a chain from it never ends), holds item 1 n24 (f0 cyclic), item 4 n28 (f1)\n"),
        "{cycle}"
    );
    assert!(cycle.contains("6. item 5 n29, tier 1, holds item 4 n28 (f0)\n"), "{cycle}");
    // of two structs with one name a field leads to the last
    let rows = "row 0 24\nrow 0 2\nitem 1 24 0 0 1 0\nitem 1 24 0 0 1 1";
    let sheet = piped(&["make", "-"], rows.as_bytes()).stdout;
    let last = "-: 2 structs\n1. item 1 n24, tier 0, holds none\n2. item 0 n24, tier 1, holds item 1 n24 (f0)\n\n";
    assert_eq!(with_input(&["order", "-"], &sheet).1, last);
    // a field that leads to a struct and has another message is not cyclic
    let rows = "row 0 14\nrow 0 2\nitem 1 14 0 0 1 1\nitem 1 24 0 0 1 0";
    let sheet = piped(&["make", "-"], rows.as_bytes()).stdout;
    assert!(with_input(&["check", "-"], &sheet).1.contains("error[32]: using struct by value is not supported\n --> field 0 of item 1\n"));
    assert!(with_input(&["order", "-"], &sheet).1.ends_with("2. item 1 n24, tier 1, holds item 0 CxxString (f0)\n\n"));
    let dot = run(&["order", "--dot", "samples/worked.sheet", "samples/refused.sheet"]);
    let expected = "digraph \"samples/worked.sheet\" {
  i1 [label=\"n25\\nitem 1, tier 255\"];
  i0 [label=\"n24\\nitem 0, tier 255\"];
  i1 -> i1 [label=\"f0 cyclic\", color=red, fontcolor=red, style=bold];
  i0 -> i1 [label=\"f0 cyclic\", color=red, fontcolor=red, style=bold];
}
";
    assert_eq!(dot, (2, expected.to_owned(), "samples/refused.sheet: refused 7 at 12\n".to_owned()));
}

#[test]
fn data() {
    let worked = "{\"file\":\"samples/worked.sheet\",\"accepted\":true,\"total\":2,\"sets\":{\"structs\":[24,25],\"enums\":[],\"cxx\":[],\"rust\":[],\
        \"aliases\":[],\"untrusted\":[],\"required_trivial\":[],\"improper\":[]},\"reasons\":{},\"unpin\":{},\
        \"order\":[1,0],\"tiers\":[255,255],\"records\":[\
        {\"message\":2,\"place\":\"F\",\"numbers\":[1,0],\"detail\":0,\"text\":\"unsupported cyclic data structure\"},\
        {\"message\":2,\"place\":\"F\",\"numbers\":[0,0],\"detail\":0,\"text\":\"unsupported cyclic data structure\"}]}\n";
    let refused = "{\"file\":\"samples/refused.sheet\",\"accepted\":false,\"refusal\":7,\"position\":12}\n";
    let found = run(&["check", "--json", "samples/worked.sheet", "samples/refused.sheet"]);
    assert_eq!(found, (2, format!("{worked}{refused}"), String::new()));
    let names = run(&["check", "--json", "--names=samples/blade.names", "samples/blade.sheet"]).1;
    assert!(
        names.contains("use Pin<&mut Blade>\"}") && names.contains("\"reasons\":{\"26\":2},\"unpin\":{\"26\":{\"row\":4}},"),
        "{names}"
    );
    let order = "{\"file\":\"samples/worked.sheet\",\"accepted\":true,\"structs\":[\
        {\"item\":1,\"name\":25,\"tier\":255,\"holds\":[{\"field\":0,\"item\":1,\"cyclic\":true}]},\
        {\"item\":0,\"name\":24,\"tier\":255,\"holds\":[{\"field\":0,\"item\":1,\"cyclic\":true}]}]}\n";
    assert_eq!(run(&["order", "--json", "samples/worked.sheet"]).1, order);
    let show = "{\"file\":\"samples/worked.sheet\",\"accepted\":true,\"rows\":[\"n25\"],\"items\":[\"struct n24 { f0: n25 }\",\"struct n25 { f0: n25 }\"]}\n";
    assert_eq!(run(&["show", "--json", "samples/worked.sheet"]).1, show);
}

#[test]
fn made_sheets() {
    let made = folder("made");
    let path = |name: &str| made.join(name).to_str().unwrap().to_owned();
    std::fs::copy(repository().join("samples/cutter.rows"), path("cutter.rows")).unwrap();
    assert_eq!(run(&["make", &path("cutter.rows")]), (0, String::new(), String::new()));
    let sheet = std::fs::read(repository().join("samples/cutter.sheet")).unwrap();
    assert_eq!(std::fs::read(path("cutter.sheet")).unwrap(), sheet);
    assert_eq!(run(&["make", "--check", &path("cutter.rows")]).0, 0);
    std::fs::write(path("cutter.sheet"), &sheet[1..]).unwrap();
    let (status, _, err) = run(&["make", "--check", &path("cutter.rows")]);
    assert!(status == 1 && err.contains("it differs from what"), "{err}");
    assert_eq!(std::fs::read(path("cutter.sheet")).unwrap(), sheet[1..], "nothing is written");
    for (text, fault) in [
        ("row 0 9\nrwo 1 1\n", "line 2: it begins with `rwo`, not with `row` or `item`"),
        ("row 0 65536\n", "line 1: `65536` is no pair, which is 0 to 65535"),
        ("row -1\n", "line 1: `-1` is no pair, which is 0 to 65535"),
        (&"row 9\n".repeat(9_000), "it makes 36004 bytes, and a sheet has at most 32768"),
    ] {
        let (status, out, err) = with_input(&["make", "-"], text.as_bytes());
        assert_eq!((status, &out[..], err), (3, "", format!("tirvouez: -: {fault}\n")));
    }
    assert_eq!(with_input(&["make", "-"], b"# nothing\n").1, "\0\0\0\0");
    // and what is shown is made again
    for sample in ["blade", "cutter", "cycle", "faults", "mended", "worked"] {
        let sheet = std::fs::read(repository().join(format!("samples/{sample}.sheet"))).unwrap();
        let rows = piped(&["show", "--rows", "--names", "samples/cutter.names", "-"], &sheet).stdout;
        assert_eq!(piped(&["make", "-"], &rows).stdout, sheet, "{sample}");
    }
    assert_eq!(run(&["make", &path("cutter.sheet")]).0, 4);
    std::fs::remove_dir_all(made).unwrap();
}

#[test]
fn files_of_names() {
    let names = folder("names");
    let file = names.join("names").to_str().unwrap().to_owned();
    for (text, fault) in [
        ("24 Point\n25 Point\n", "line 2: Point is what 24 is called"),
        ("24 Point\n24 Lay\n", "line 2: 24 has a name already"),
        ("24 n25\n", "line 1: n25 is what 25 is called"),
        ("24 u8\n", "line 1: u8 is what 2 is called"),
        ("+24 Point\n", "line 1: `+24` is no name's number, which is 0 to 255"),
        ("\n# a note\n256 Far\n", "line 3: `256` is no name's number, which is 0 to 255"),
        ("24\n", "line 1: expected a number and a name, as `24 Point`"),
        ("24 Two words\n", "line 1: expected a number and a name, as `24 Point`"),
        ("2 byte\n", "line 1: 2 is u8, and can't be called byte"),
        ("24 \u{1b}[31m\n", "line 1: the name of 24 has a character that is not seen"),
        (&format!("24 {}\n", "x".repeat(129)), "line 1: the name of 24 is longer than 128 bytes"),
    ] {
        std::fs::write(&file, text).unwrap();
        let (status, out, err) = run(&["show", "--names", &file, "samples/worked.sheet"]);
        assert_eq!((status, &out[..], err), (3, "", format!("tirvouez: {file}: {fault}\n")));
    }
    std::fs::write(&file, "\u{feff}2 u8\r\n24 Ärmel # sleeve\n\n25\tr#type").unwrap();
    let (_, out, _) = run(&["check", "--names", &file, "samples/worked.sheet"]);
    assert!(out.contains("  | struct Ärmel { f0: r#type }\n  |                ^^^^^^^^^^\n"), "{out}");
    // two columns for each of these
    std::fs::write(&file, "24 刃物\n25 n24\n").unwrap();
    let (_, out, _) = run(&["check", "--names", &file, "samples/worked.sheet"]);
    assert!(out.contains("  | struct 刃物 { f0: n24 }\n  |               ^^^^^^^\n"), "{out}");
    std::fs::remove_dir_all(names).unwrap();
}

#[test]
fn commands_that_are_not_understood() {
    for arguments in [
        &[][..],
        &["chekc", "samples/worked.sheet"],
        &["check"],
        &["check", "--dot", "samples/worked.sheet"],
        &["check", "--brief", "--json", "samples/worked.sheet"],
        &["check", "-", "-"],
        &["check", "--names"],
        &["check", "--json=yes", "samples/worked.sheet"],
        &["make", "--output", "a", "--output", "b", "samples/worked.rows"],
        &["make", "--check", "-"],
        &["check", "--names", "-", "samples/worked.sheet"],
    ] {
        let (status, out, err) = run(arguments);
        assert_eq!((status, &out[..]), (4, ""), "{arguments:?}");
        assert!(err.starts_with("tirvouez: ") && err.ends_with("\nTry `tirvouez --help`.\n"), "{err}");
    }
    let (status, help, _) = run(&["--help"]);
    assert_eq!((status, &help), (0, &run(&["check", "--help"]).1));
    for line in
        ["  0   all is clean", "  1   check: some sheet has a diagnostic", "  2   some sheet is refused", "  3   a file cannot be read"]
    {
        assert!(help.contains(line), "{line}");
    }
    assert_eq!(run(&["show", "--rows", "samples/worked.sheet", "samples/cycle.sheet"]).0, 4);
    assert_eq!(run(&["make", "--output", "samples/worked.rows", "samples/worked.rows"]).0, 4);
    // after -- nothing is an option
    assert_eq!(run(&["check", "--", "--json"]).0, 3);
}

#[test]
fn names_that_are_no_text() {
    let made = folder("bytes");
    let path = |name: &[u8]| made.join(OsStr::from_bytes(name));
    let option = |option: &str, path: &Path| OsString::from_vec([option.as_bytes(), path.as_os_str().as_bytes()].concat());
    std::fs::write(path(b"n\xff.names"), "24 Panel\n").unwrap();
    let run = command(&["show", "samples/worked.sheet"]).arg(option("--names=", &path(b"n\xff.names"))).output().unwrap();
    assert!(String::from_utf8(run.stdout).unwrap().contains("struct Panel"));
    for argument in [&b"-\xff="[..], b"--\xff", b"\xff", b"-=", b"=", b""] {
        let run = command(&["check", "samples/cutter.sheet"]).arg(OsStr::from_bytes(argument)).output().unwrap();
        assert!(matches!(run.status.code(), Some(3 | 4)), "{argument:?}: {}", run.status);
    }
    let run = command(&["make", "samples/worked.rows"]).arg(option("--output=", &path(b"o\xff.sheet"))).status().unwrap();
    assert!(run.success() && path(b"o\xff.sheet").exists());
    // of a folder the files alone: not a folder in it, and no pipe, to which nobody may write
    std::fs::create_dir(path(b"sub.sheet")).unwrap();
    assert!(Command::new("mkfifo").arg(path(b"pipe.sheet")).status().unwrap().success());
    let run = command(&["check", "--json"]).arg(&made).output().unwrap();
    assert_eq!((run.status.code(), run.stderr.len()), (Some(1), 0));
    assert_eq!(String::from_utf8(run.stdout).unwrap().lines().count(), 1);
    std::fs::remove_dir_all(made).unwrap();
}

#[test]
fn nobody_reads() {
    // a pipe whose reader has gone
    let many = vec!["samples/faults.sheet"; 2_000];
    let mut child = command(&[&["check"], &many[..]].concat()).stdout(Stdio::piped()).stderr(Stdio::piped()).spawn().unwrap();
    drop(child.stdout.take());
    let (status, _, err) = ended(child.wait_with_output().unwrap());
    assert_eq!((status, &err[..]), (1, ""));
    // an output that can't be written, an input that can't be read
    let only_read = std::fs::File::open("/dev/null").unwrap();
    let run = command(&["check", "samples/faults.sheet"]).stdout(only_read).output().unwrap();
    assert_eq!((run.status.code(), &run.stderr[..]), (Some(4), &b"tirvouez: cannot write: Bad file descriptor (os error 9)\n"[..]));
    let only_written = std::fs::OpenOptions::new().write(true).open("/dev/null").unwrap();
    let run = command(&["check", "-"]).stdin(only_written).output().unwrap();
    assert_eq!((run.status.code(), &run.stderr[..]), (Some(3), &b"tirvouez: -: cannot be read: Bad file descriptor (os error 9)\n"[..]));
    let full = std::fs::OpenOptions::new().write(true).open("/dev/full").unwrap();
    let run = command(&["check", "samples/faults.sheet"]).stdout(full).output().unwrap();
    assert_eq!((run.status.code(), &run.stderr[..]), (Some(4), &b"tirvouez: cannot write: No space left on device (os error 28)\n"[..]));
}
