//! Stand-in for indexmap: a hash map and a hash set that keep the order of
//! insertion, with the same default hasher as the crate.

pub mod map;
pub mod set;

pub use map::IndexMap;
pub use set::IndexSet;

#[macro_export]
macro_rules! indexset {
    ($($value:expr),* $(,)?) => {{
        let mut set = $crate::IndexSet::new();
        $(set.insert($value);)*
        set
    }};
}
