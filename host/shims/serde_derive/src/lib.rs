//! The derive macros of `serde` as goko's records name them; nothing is stored here, so they
//! derive nothing.

use proc_macro::TokenStream;

/// Derives nothing.
#[proc_macro_derive(Serialize)]
pub fn serialize(_item: TokenStream) -> TokenStream {
    TokenStream::new()
}

/// Derives nothing.
#[proc_macro_derive(Deserialize)]
pub fn deserialize(_item: TokenStream) -> TokenStream {
    TokenStream::new()
}
