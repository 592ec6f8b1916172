//! Stands for the registry's num-derive. Its conversions are used by readers of the bit stream
//! only, so it emits nothing.

use proc_macro::TokenStream;

#[proc_macro_derive(FromPrimitive)]
pub fn from_primitive(_: TokenStream) -> TokenStream {
    TokenStream::new()
}
