//! Stands in for async-trait: the item as it stands, for the language has `async fn` in traits.

use proc_macro::TokenStream;

#[proc_macro_attribute]
pub fn async_trait(_: TokenStream, item: TokenStream) -> TokenStream {
    item
}
