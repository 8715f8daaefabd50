//! A stand-in for the crate of this name, where nobody listens.

extern crate proc_macro;
use proc_macro::TokenStream;

#[proc_macro]
pub fn debug(_: TokenStream) -> TokenStream {
    "()".parse().unwrap()
}

#[proc_macro]
pub fn trace(_: TokenStream) -> TokenStream {
    "()".parse().unwrap()
}

#[proc_macro]
pub fn warn(_: TokenStream) -> TokenStream {
    "()".parse().unwrap()
}

#[proc_macro]
pub fn trace_span(_: TokenStream) -> TokenStream {
    "{ struct Span; impl Span { fn entered(self) {} } Span }".parse().unwrap()
}

/// The function as it is.
#[proc_macro_attribute]
pub fn instrument(_: TokenStream, function: TokenStream) -> TokenStream {
    function
}
