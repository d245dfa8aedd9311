//! Tokens: each carries its span.

use proc_macro2::{Span, TokenStream};
use quote::ToTokens;

macro_rules! tokens {
    ($($name:ident)*) => {
        $(
            #[derive(Copy, Clone)]
            pub struct $name(pub Span);

            impl ToTokens for $name {
                fn to_tokens(&self, tokens: &mut TokenStream) {
                    tokens.push(self.0);
                }
            }
        )*
    };
}

tokens! { And Bang Comma Enum Eq Fn Minus Mut Paren SelfValue Struct Unsafe }

#[derive(Copy, Clone)]
pub struct Brace {
    pub span: DelimSpan,
}

#[derive(Copy, Clone)]
pub struct DelimSpan(pub Span);

impl DelimSpan {
    pub fn join(&self) -> Span {
        self.0
    }
}

#[derive(Copy, Clone)]
pub struct Gt {
    pub span: Span,
}

#[macro_export]
macro_rules! Token {
    [&] => { $crate::token::And };
    [!] => { $crate::token::Bang };
    [,] => { $crate::token::Comma };
    [enum] => { $crate::token::Enum };
    [=] => { $crate::token::Eq };
    [fn] => { $crate::token::Fn };
    [>] => { $crate::token::Gt };
    [-] => { $crate::token::Minus };
    [mut] => { $crate::token::Mut };
    [self] => { $crate::token::SelfValue };
    [struct] => { $crate::token::Struct };
    [unsafe] => { $crate::token::Unsafe };
}
