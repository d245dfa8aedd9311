//! Stand-in for ident.rs, which is left out (docs/DIFFERENCES.md).

use crate::syntax::Api;
use crate::syntax::check::Check;

pub(crate) fn check_all(_cx: &mut Check, _apis: &[Api]) {}
