//! Stand-in for message.rs: a text that `write!` adds to.

use std::fmt::{self, Display, Write};

pub(crate) struct Message(String);

impl Message {
    pub(crate) fn new() -> Self {
        Message(String::new())
    }

    pub(crate) fn write_fmt(&mut self, args: fmt::Arguments) {
        Write::write_fmt(&mut self.0, args).unwrap();
    }
}

impl Display for Message {
    fn fmt(&self, f: &mut fmt::Formatter) -> fmt::Result {
        f.write_str(&self.0)
    }
}
