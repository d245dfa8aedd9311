//! What a name is called: 0 to 23 as in Rust, a free one `n24`, or what a file of names says.

use crate::sheet::{LAST_NAME, NAMES};
use crate::text::columns::unseen;
use crate::text::number::digits;
use std::collections::HashMap;

const KNOWN: [&str; 24] = [
    "bool",
    "c_char",
    "u8",
    "u16",
    "u32",
    "u64",
    "usize",
    "i8",
    "i16",
    "i32",
    "i64",
    "isize",
    "f32",
    "f64",
    "CxxString",
    "String",
    "Box",
    "UniquePtr",
    "SharedPtr",
    "WeakPtr",
    "Vec",
    "CxxVector",
    "str",
    "Self",
];

/// Bytes of a name, at most.
const LONGEST: usize = 128;

/// By number.
pub struct Names(Vec<String>);

impl Default for Names {
    fn default() -> Self {
        let free = KNOWN.len()..NAMES;
        Self(KNOWN.iter().map(|known| (*known).to_owned()).chain(free.map(|name| format!("n{name}"))).collect())
    }
}

impl Names {
    /// Of a file of lines `24 Point`; a word that begins with # and what follows it is not read.
    pub fn read(text: &str) -> Result<Self, String> {
        let mut names = Self::default();
        let mut given: Vec<(usize, usize)> = Vec::new();
        let fault = |line: usize, what: String| format!("line {}: {what}", line + 1);
        for (line, text) in text.strip_prefix('\u{feff}').unwrap_or(text).lines().enumerate() {
            let words: Vec<&str> = text.split_whitespace().take_while(|word| !word.starts_with('#')).collect();
            let (number, name) = match words[..] {
                [] => continue,
                [number, name] => (number, name),
                _ => return Err(fault(line, "expected a number and a name, as `24 Point`".to_owned())),
            };
            let number = names.give(number, name).map_err(|what| fault(line, what))?;
            if given.iter().any(|(_, before)| *before == number) {
                return Err(fault(line, format!("{number} has a name already")));
            }
            given.push((line, number));
        }
        // after all, since a name may be what another number is no longer called
        let kept = (0..NAMES).filter(|number| !given.iter().any(|(_, named)| named == number));
        let mut called: HashMap<&str, usize> = kept.map(|number| (&names.0[number][..], number)).collect();
        for (line, number) in given {
            if let Some(other) = called.insert(&names.0[number], number) {
                return Err(fault(line, format!("{} is what {other} is called", names.0[number])));
            }
        }
        Ok(names)
    }

    /// Names a number, and gives it.
    fn give(&mut self, number: &str, name: &str) -> Result<usize, String> {
        let Some(number) = digits(number).filter(|&number| number < NAMES) else {
            return Err(format!("`{}` is no name's number, which is 0 to {LAST_NAME}", number.escape_debug()));
        };
        if name.contains(unseen) {
            return Err(format!("the name of {number} has a character that is not seen"));
        }
        if name.len() > LONGEST {
            return Err(format!("the name of {number} is longer than {LONGEST} bytes"));
        }
        if KNOWN.get(number).is_some_and(|&known| known != name) {
            return Err(format!("{number} is {}, and can't be called {name}", KNOWN[number]));
        }
        self.0[number] = name.to_owned();
        Ok(number)
    }

    pub fn of(&self, name: u16) -> &str {
        &self.0[usize::from(name)]
    }
}
