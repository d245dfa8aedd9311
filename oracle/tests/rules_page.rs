//! The example of docs/RULES.md, "The program `report`".

mod page;

use oracle::judge::judge;
use oracle::{print, proved};

#[test]
fn worked_sheet() {
    let text = page::text("RULES.md");
    let (_, section) = text.split_once("\nThe worked sheet, ").expect("the worked sheet");
    let sheet = page::sheet(&page::code(section).expect("its pairs"));
    assert_eq!(sheet, proved::worked());
    let lines = section.lines().skip_while(|line| !line.starts_with("    "));
    let lines = lines.map_while(|line| line.strip_prefix("    "));
    let printed: String = lines.map(|line| format!("{line}\n")).collect();
    assert_eq!(printed, print::report(&judge(&sheet)));
}
