//! Tells a message's number by its text, and its detail where the text
//! holds it.

/// How a text looks: the whole of it, or its beginning and its end.
enum Text {
    Is(&'static str),
    Has(&'static str, &'static str),
}

use Text::{Has, Is};

const SELF_TYPE: &str = "unsupported Self type of explicit impl";

const TEXTS: [(u8, Text); 57] = [
    (1, Has("the ", " is defined multiple times")),
    (2, Is("unsupported cyclic data structure")),
    (3, Has("unsupported type: ", "")),
    (4, Is("Box of a C++ type is not supported yet")),
    (5, Is("unsupported target type of Box")),
    (6, Is("Rust Vec containing C++ type is not supported yet")),
    (7, Is("unsupported element type of Vec")),
    (8, Is("unique_ptr of a Rust type is not supported yet")),
    (9, Is("unsupported unique_ptr target type")),
    (10, Is("shared_ptr of a Rust type is not supported yet")),
    (11, Is("std::shared_ptr<std::vector> is not supported yet")),
    (12, Is("unsupported shared_ptr target type")),
    (13, Is("weak_ptr of a Rust type is not supported yet")),
    (14, Is("std::weak_ptr<std::vector> is not supported yet")),
    (15, Is("unsupported weak_ptr target type")),
    (16, Is("C++ vector containing a Rust type is not supported yet")),
    (17, Is("unsupported vector element type")),
    (18, Has("mutable reference to C++ type requires a pin -- use Pin<&mut ", ">")),
    (19, Is("C++ does not allow references to references")),
    (20, Is("unsupported reference type")),
    (21, Is("C++ does not allow pointer to reference as a type")),
    (22, Is("unsupported pointer type")),
    (23, Has("unsupported &", "")),
    (24, Is("unsupported array element type")),
    (25, Is("function pointer returning Result is not supported yet")),
    (26, Is("pointer argument requires that the function pointer be marked unsafe")),
    (27, Is("structs without any fields are not supported")),
    (28, Is("extern shared struct must be declared in an `unsafe extern` block")),
    (29, Has("derive(", ") is currently only supported on enums, not structs")),
    (30, Has("derive(", ") on shared struct is not supported")),
    (31, Is("function pointers in a struct field are not implemented yet")),
    (32, Has("using ", " by value is not supported")),
    (33, Is("explicit #[repr(...)] is required for enum without any variants")),
    (34, Has("derive(Default) on enum requires exactly one variant", "")),
    (35, Is("derive(ExternType) on shared enum is not supported")),
    (36, Has("derive(", " type is not supported yet")),
    (37, Is("extern type bounds are not implemented yet")),
    (38, Has("needs a cxx::ExternType impl in order to be used as ", "")),
    (39, Has("extern C++ function with lifetimes must be declared in ", "")),
    (40, Has("must be `unsafe fn ", "` in order to expose explicit lifetimes to C++")),
    (41, Has("unnamed receiver type is only allowed if ", "")),
    (42, Is("unsupported receiver type; C++ does not allow member functions on enums")),
    (43, Is("unrecognized receiver type")),
    (44, Has("mutable reference to opaque C++ type requires a pin -- use ", "")),
    (45, Is("unsupported self type; C++ does not allow member functions on enums")),
    (46, Is("unrecognized self type")),
    (47, Is("passing a function pointer from C++ to Rust is not implemented yet")),
    (48, Is("pointer argument requires that the function be marked unsafe")),
    (49, Has("passing ", " by value is not supported")),
    (50, Is("returning a function pointer is not implemented yet")),
    (51, Has("returning ", " by value is not supported")),
    (52, Has("derive(", ") on extern type alias is not supported")),
    (53, Is("negative impl is not supported yet")),
    // 54 and 55 share this text; see `number`.
    (54, Is(SELF_TYPE)),
    (56, Is("&mut return type is not allowed unless there is a &mut argument")),
    (57, Is("reserved name")),
    (58, Is("invalid lifetime parameter name: `'static`")),
];

/// The branches of `describe` in text order, from 1 on; 8 is the name itself.
const DESCRIPTIONS: [&str; 21] = [
    "struct",
    "enum",
    "C++ type",
    "opaque C++ type",
    "opaque Rust type",
    "C++ string",
    "C char",
    "",
    "Box",
    "Vec",
    "unique_ptr",
    "shared_ptr",
    "weak_ptr",
    "reference",
    "raw pointer",
    "&str",
    "C++ vector",
    "slice",
    "function pointer",
    "()",
    "array",
];

impl Text {
    fn fits(&self, text: &str) -> bool {
        match self {
            Is(whole) => text == *whole,
            Has(begin, end) => text.strip_prefix(begin).is_some_and(|rest| rest.ends_with(end)),
        }
    }
}

/// The number of a text. `generic_impl` is asked for 54 and 55 alone: whether
/// the impl's row has a kind of 1 to 6.
pub fn number(text: &str, generic_impl: impl FnOnce() -> bool) -> u8 {
    let mut fitting = TEXTS.iter().filter(|(_, shape)| shape.fits(text));
    let Some((number, _)) = fitting.next() else {
        panic!("a text of no message: {text}");
    };
    assert!(fitting.next().is_none(), "a text of two messages: {text}");
    match number {
        54 if !generic_impl() => 55,
        number => *number,
    }
}

/// The detail, for all messages but 38, whose text does not count reasons.
pub fn detail(number: u8, text: &str) -> u16 {
    match number {
        23 => text.ends_with(": opaque C++ type is not supported yet") as u16,
        32 => branch(text, "using "),
        49 => branch(text, "passing "),
        51 => branch(text, "returning "),
        34 => text.split_once("(found ").map_or(0, |(_, found)| {
            found.trim_end_matches(')').parse().expect("a count of variants")
        }),
        _ => 0,
    }
}

fn branch(text: &str, begin: &str) -> u16 {
    let rest = text.strip_prefix(begin).expect("a text of this message");
    let what = rest.trim_end_matches(" by value is not supported");
    let found = DESCRIPTIONS.iter().position(|description| *description == what);
    found.map_or(8, |index| index as u16 + 1)
}
