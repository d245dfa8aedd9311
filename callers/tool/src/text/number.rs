//! Decimal numbers, written without the formatting machinery: a report may have tens of thousands of them.

use std::fmt::{self, Display, Formatter};

/// 00 to 99.
const TWO: &str = "0001020304050607080910111213141516171819202122232425262728293031323334353637383940414243444546474849\
                   5051525354555657585960616263646566676869707172737475767778798081828384858687888990919293949596979899";

pub fn push(out: &mut String, number: usize) {
    if number < 10 {
        return out.push_str(&TWO[2 * number + 1..2 * number + 2]);
    }
    if number >= 100 {
        push(out, number / 100);
    }
    let last = 2 * (number % 100);
    out.push_str(&TWO[last..last + 2]);
}

/// The number that a word of digits is.
pub fn digits(word: &str) -> Option<usize> {
    word.bytes().all(|byte| byte.is_ascii_digit()).then(|| word.parse().ok())?
}

/// `1 row`, `2 rows`.
pub struct Count(pub usize, pub &'static str);

impl Display for Count {
    fn fmt(&self, f: &mut Formatter) -> fmt::Result {
        write!(f, "{} {}{}", self.0, self.1, if self.0 == 1 { "" } else { "s" })
    }
}

#[cfg(test)]
mod tests {
    #[test]
    fn as_they_are_written() {
        for number in (0..100_000).chain([usize::MAX]) {
            let mut text = String::new();
            super::push(&mut text, number);
            assert_eq!(text, number.to_string());
        }
    }
}
