//! Literals and the few expressions that discriminant.rs looks at.

use crate::{Error, Result, token};
use proc_macro2::{Span, TokenStream};
use quote::ToTokens;
use std::fmt::Display;
use std::str::FromStr;

pub enum Expr {
    Lit(ExprLit),
    Unary(ExprUnary),
    Other,
}

pub struct ExprLit {
    pub lit: Lit,
}

pub struct ExprUnary {
    pub op: UnOp,
    pub expr: Box<Expr>,
}

pub enum UnOp {
    Neg(token::Minus),
    Other,
}

pub enum Lit {
    Int(LitInt),
    Other,
}

/// Digits and suffix of an integer literal.
pub struct LitInt {
    pub digits: String,
    pub suffix: String,
}

impl LitInt {
    pub fn base10_parse<N>(&self) -> Result<N>
    where
        N: FromStr,
        N::Err: Display,
    {
        let parsed = self.digits.parse();
        parsed.map_err(|error: N::Err| Error::new(Span::call_site(), error))
    }

    pub fn suffix(&self) -> &str {
        &self.suffix
    }
}

#[derive(Clone)]
pub struct LitStr {
    pub text: String,
}

impl LitStr {
    pub fn value(&self) -> String {
        self.text.clone()
    }

    pub fn token(&self) -> String {
        format!("{:?}", self.text)
    }
}

impl ToTokens for Expr {
    fn to_tokens(&self, tokens: &mut TokenStream) {
        tokens.push(Span::call_site());
    }
}
