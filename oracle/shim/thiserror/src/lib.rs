//! Stands in for thiserror.
//!
//! Its derive is used on types without parameters that have their own `Display`, so an empty
//! `std::error::Error` is all that is missing.

use proc_macro::{TokenStream, TokenTree};

#[proc_macro_derive(Error)]
pub fn error(item: TokenStream) -> TokenStream {
    let mut words = item.into_iter().filter_map(|token| match token {
        TokenTree::Ident(word) => Some(word.to_string()),
        _ => None,
    });
    let keyword = words.find(|word| word == "enum" || word == "struct");
    let name = keyword.and_then(|_| words.next());
    let name = name.expect("a derive stands on an enum or a struct");
    let item = format!("impl ::std::error::Error for {name} {{}}");
    item.parse().expect("this is an item")
}
