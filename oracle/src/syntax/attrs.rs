//! Stand-in for attrs.rs: a sheet has no attributes.

pub(crate) struct OtherAttrs;
