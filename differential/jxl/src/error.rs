//! The original's errors, as far as its four files name them, with what they carry there.

#[derive(Debug)]
pub enum Error {
    ApiUsageError(&'static str),
    IccInvalidTagString(String),
    IccInvalidWhitePoint(f32, f32, String),
    IccInvalidWhitePointY(f32),
    IccMlucTextNotAscii(String),
    IccTableSizeExceeded(usize),
    IccUnsupportedTransferFunction,
    IccValueOutOfRangeS15Fixed16(f32),
    IccWriteOutOfBounds,
    InvalidColorEncoding,
    InvalidColorSpace,
    InvalidGamma(f32),
    InvalidIccStream,
    InvalidRenderingIntent,
    MatrixInversionFailed(f64),
}

pub type Result<T, E = Error> = std::result::Result<T, E>;
