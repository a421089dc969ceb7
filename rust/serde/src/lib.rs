//! A stand-in for the derives of the crate serde that rphonetic's helper.rs and lib.rs name. They derive nothing:
//! nothing that is compared is written out or read in.

use proc_macro::TokenStream;

#[proc_macro_derive(Serialize)]
pub fn serialize(_: TokenStream) -> TokenStream {
    TokenStream::new()
}

#[proc_macro_derive(Deserialize)]
pub fn deserialize(_: TokenStream) -> TokenStream {
    TokenStream::new()
}
