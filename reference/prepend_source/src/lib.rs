//! `#[prepend_source("FILE")] mod NAME { ITEMS }` is a module of all that FILE holds, then ITEMS.
//!
//! A private field can be reached only from inside the module that declares it, so an accessor for
//! a file that has to stay as it is must share that file's module. `include!` would be the plain
//! way, but it refuses a file that opens with `//!` comments. As tokens these are attributes, which
//! a module's body may open with.

use proc_macro::{Delimiter, Group, Span, TokenStream, TokenTree};
use std::fs;

/// FILE is relative to the file that the attribute stands in, as it is for `include!`.
#[proc_macro_attribute]
pub fn prepend_source(file: TokenStream, module: TokenStream) -> TokenStream {
    let file = file.to_string();
    let here = Span::call_site().local_file().expect("a call in a file");
    let path = here.with_file_name(file.trim_matches('"'));
    let text = fs::read_to_string(&path).unwrap_or_else(|e| panic!("{}: {e}", path.display()));
    let source: TokenStream = text.parse().expect("a file of Rust tokens");

    // Tells cargo to build anew when FILE changes.
    let watch: TokenStream = format!("const _: &[u8] = include_bytes!({file});")
        .parse()
        .expect("FILE is a string literal");

    let prepend = |body: Group| {
        let items = [source.clone(), watch.clone(), body.stream()];
        Group::new(Delimiter::Brace, items.into_iter().collect())
    };
    module
        .into_iter()
        .map(|token| match token {
            TokenTree::Group(body) if body.delimiter() == Delimiter::Brace => prepend(body).into(),
            token => token,
        })
        .collect()
}
