//! Stand-in for error.rs: the two texts that check.rs names.

use std::fmt::{self, Display};

pub(crate) struct Error {
    pub msg: &'static str,
}

impl Display for Error {
    fn fmt(&self, f: &mut fmt::Formatter) -> fmt::Result {
        f.write_str(self.msg)
    }
}

pub(crate) static BOX_CXX_TYPE: Error = Error { msg: "Box of a C++ type is not supported yet" };

pub(crate) const RESERVED_LIFETIME: Error =
    Error { msg: "invalid lifetime parameter name: `'static`" };
