//! Stands in for what tracing and salsa have of macros: nothing is traced and nothing is kept.

extern crate proc_macro;
use proc_macro::TokenStream;

#[proc_macro_attribute]
pub fn instrument(_: TokenStream, item: TokenStream) -> TokenStream {
    item
}

#[proc_macro]
pub fn debug(_: TokenStream) -> TokenStream {
    "()".parse().unwrap()
}

#[proc_macro]
pub fn info_span(_: TokenStream) -> TokenStream {
    "crate::Span".parse().unwrap()
}

#[proc_macro_derive(Supertype)]
pub fn supertype(_: TokenStream) -> TokenStream {
    TokenStream::new()
}
