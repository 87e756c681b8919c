//! Stand-in for `aristo`: its attributes are remarks, and leave the item as it is.

use proc_macro::TokenStream;

#[proc_macro_attribute]
pub fn assume(_remark: TokenStream, item: TokenStream) -> TokenStream {
    item
}

#[proc_macro_attribute]
pub fn intent(_remark: TokenStream, item: TokenStream) -> TokenStream {
    item
}
