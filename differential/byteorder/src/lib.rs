//! Stands for the registry's byteorder: the two big-endian writes that the XYB elements use.
//! This stub is run, and does the real thing.

use std::io::{Result, Write};

/// How a number becomes bytes.
pub trait ByteOrder {
    fn u16_bytes(number: u16) -> [u8; 2];
    fn u32_bytes(number: u32) -> [u8; 4];
}

pub enum BigEndian {}

impl ByteOrder for BigEndian {
    fn u16_bytes(number: u16) -> [u8; 2] {
        number.to_be_bytes()
    }

    fn u32_bytes(number: u32) -> [u8; 4] {
        number.to_be_bytes()
    }
}

pub trait WriteBytesExt: Write {
    fn write_u16<T: ByteOrder>(&mut self, number: u16) -> Result<()> {
        self.write_all(&T::u16_bytes(number))
    }

    fn write_u32<T: ByteOrder>(&mut self, number: u32) -> Result<()> {
        self.write_all(&T::u32_bytes(number))
    }
}

impl<W: Write + ?Sized> WriteBytesExt for W {}
