//! How the original reads its headers from the bit stream. Nothing that the judge runs does.

use super::color_encoding::ColorEncoding;
use crate::bit_reader::BitReader;
use crate::error::Error;

pub struct Empty {}

pub trait UnconditionalCoder<Config>: Sized {
    fn read_unconditional(config: &Config, br: &mut BitReader, rest: &Empty)
    -> Result<Self, Error>;
}

impl UnconditionalCoder<()> for ColorEncoding {
    fn read_unconditional(_: &(), _: &mut BitReader, _: &Empty) -> Result<Self, Error> {
        unreachable!("no bit stream is read")
    }
}
