//! A stand-in for the crate of this name. A message's own text is kept (`said`), since the original says in it alone why it
//! rejects a packet. Its arguments are not evaluated, as in the original where nobody listens.

extern crate proc_macro;
use proc_macro::{TokenStream, TokenTree};

fn kept(message: TokenStream) -> TokenStream {
    let text = message.into_iter().find_map(|token| match token {
        TokenTree::Literal(text) if text.to_string().starts_with('"') => Some(text),
        _ => None,
    });
    format!("crate::said::say({})", text.expect("a message"))
        .parse()
        .unwrap()
}

#[proc_macro]
pub fn debug(message: TokenStream) -> TokenStream {
    kept(message)
}

#[proc_macro]
pub fn trace(message: TokenStream) -> TokenStream {
    kept(message)
}

#[proc_macro]
pub fn warn(message: TokenStream) -> TokenStream {
    kept(message)
}

#[proc_macro]
pub fn trace_span(_: TokenStream) -> TokenStream {
    "crate::said::Span".parse().unwrap()
}

/// The function as it is.
#[proc_macro_attribute]
pub fn instrument(_: TokenStream, function: TokenStream) -> TokenStream {
    function
}
