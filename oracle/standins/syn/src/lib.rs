//! Stand-in for syn: lifetimes and tokens that carry places, errors, and as
//! much of the parser as the sources name (nothing here is ever parsed).

mod error;
mod expr;
mod generics;
pub mod parse;
pub mod token;

pub use error::{Error, Result};
pub use expr::{Expr, ExprLit, ExprUnary, Lit, LitInt, LitStr, UnOp};
pub use generics::{GenericParam, Generics, Lifetime, LifetimeParam};
pub use parse::Attribute;
