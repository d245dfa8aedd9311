//! Stand-in for quote: tokens are spans, and only the first one counts.

use proc_macro2::{Group, Ident, Literal, Span, TokenStream};

pub trait ToTokens {
    fn to_tokens(&self, tokens: &mut TokenStream);

    fn into_span(self) -> Span
    where
        Self: Sized,
    {
        let mut tokens = TokenStream::new();
        self.to_tokens(&mut tokens);
        tokens.first.unwrap_or(Span::call_site())
    }
}

impl<T: ToTokens + ?Sized> ToTokens for &T {
    fn to_tokens(&self, tokens: &mut TokenStream) {
        (**self).to_tokens(tokens);
    }
}

impl<T: ToTokens> ToTokens for Option<T> {
    fn to_tokens(&self, tokens: &mut TokenStream) {
        if let Some(inner) = self {
            inner.to_tokens(tokens);
        }
    }
}

impl ToTokens for TokenStream {
    fn to_tokens(&self, tokens: &mut TokenStream) {
        if let Some(span) = self.first {
            tokens.push(span);
        }
    }
}

impl ToTokens for Ident {
    fn to_tokens(&self, tokens: &mut TokenStream) {
        tokens.push(self.span);
    }
}

impl ToTokens for Group {
    fn to_tokens(&self, tokens: &mut TokenStream) {
        tokens.push(self.span);
    }
}

impl ToTokens for Literal {
    fn to_tokens(&self, tokens: &mut TokenStream) {
        tokens.push(Span::call_site());
    }
}

/// The two shapes that the sources use: `#(#list)*` and `#one #two ..`.
#[macro_export]
macro_rules! quote {
    (#(# $list:ident)*) => {{
        let mut tokens = ::proc_macro2::TokenStream::new();
        for token in $list {
            $crate::ToTokens::to_tokens(token, &mut tokens);
        }
        tokens
    }};
    ($(# $token:ident)*) => {{
        let mut tokens = ::proc_macro2::TokenStream::new();
        $($crate::ToTokens::to_tokens(&$token, &mut tokens);)*
        tokens
    }};
}
