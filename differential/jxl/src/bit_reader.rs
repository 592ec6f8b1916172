//! The reader of the bit stream. Nothing that the judge runs reads one.

use crate::error::Error;

pub struct BitReader;

impl BitReader {
    pub fn new(_: &[u8]) -> Self {
        unreachable!("no bit stream is read")
    }

    pub fn jump_to_byte_boundary(&mut self) -> Result<(), Error> {
        unreachable!("no bit stream is read")
    }

    pub fn total_bits_available(&self) -> usize {
        unreachable!("no bit stream is read")
    }
}
