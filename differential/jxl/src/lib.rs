//! The original's files, and around them stand-ins for what they lean on. The files themselves
//! are put in place by build.sh, byte for byte:
//! api/color.rs, api/xyb_constants.rs, headers/color_encoding.rs and util/linalg.rs.

pub mod api;
mod bit_reader;
mod color;
pub mod error;
pub mod headers;
mod icc;
pub mod util;
