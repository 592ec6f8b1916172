//! The reader of profiles packed in the bit stream. Nothing that the judge runs reads one.

use crate::bit_reader::BitReader;
use crate::error::Error;

pub struct IncrementalIccReader;

impl IncrementalIccReader {
    pub fn new(_: &mut BitReader, _: bool) -> Result<Self, Error> {
        unreachable!("no bit stream is read")
    }

    pub fn remaining(&self) -> usize {
        unreachable!("no bit stream is read")
    }

    pub fn read_one(&mut self, _: &mut BitReader) -> Result<(), Error> {
        unreachable!("no bit stream is read")
    }

    pub fn finalize(self, _: &mut BitReader) -> Result<Vec<u8>, Error> {
        unreachable!("no bit stream is read")
    }
}
