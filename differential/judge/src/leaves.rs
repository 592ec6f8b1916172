//! The original's pieces, asked one at a time. Floats go in and come out as bits.

use jxl::api::color::{self, JxlTransferFunction, open};
use jxl::error::Error;
use jxl::util::{inv_3x3_matrix, mul_3x3_matrix, mul_3x3_vector};

use crate::encoding::Encoding;

/// Every NaN is written as this one: which NaN an operation gives is left to the machine.
const NAN: u32 = 0x7fc0_0000;

/// What a piece of the colour arithmetic answers: 0 and its numbers, or the refusal number of its
/// error and zeros.
#[derive(Clone, Copy, Debug, PartialEq, Eq)]
pub struct Numbers<const N: usize> {
    pub status: u32,
    pub bits: [u32; N],
}

/// `append_s15_fixed_16`: the number, or None where it is refused.
pub fn fixed(bits: u32) -> Option<i32> {
    let mut bytes = Vec::new();
    match open::append_s15_fixed_16(&mut bytes, f32::from_bits(bits)) {
        Ok(()) => Some(i32::from_be_bytes(
            bytes.try_into().expect("a fixed number has four bytes"),
        )),
        Err(Error::IccValueOutOfRangeS15Fixed16(_)) => None,
        Err(error) => panic!("{bits:08x} meets {error:?}"),
    }
}

/// Whether a float times 65536 is whole (02, order 5). A double holds the product exactly.
pub fn is_whole(bits: u32) -> bool {
    (f64::from(f32::from_bits(bits)) * 65536.0).fract() == 0.0
}

/// `as f32`.
pub fn narrow(bits: u64) -> u32 {
    float_bits(f64::from_bits(bits) as f32)
}

/// A float as the original prints it, to seven decimals.
pub fn text(bits: u32) -> String {
    let gamma = JxlTransferFunction::Gamma(f32::from_bits(bits)).to_string();
    gamma
        .strip_prefix('g')
        .expect("a gamma prints as g and its float")
        .to_string()
}

/// `compute_md5`.
pub fn md5(bytes: &[u8]) -> [u8; 16] {
    color::compute_md5(bytes)
}

/// `adapt_to_xyz_d50`, narrowed as the writer narrows it; row by row.
pub fn adaptation(wx: u32, wy: u32) -> Numbers<9> {
    let matrix = open::adapt_to_xyz_d50(f32::from_bits(wx), f32::from_bits(wy));
    numbers(matrix.map(|rows| rows.map(|row| row.map(|value| value as f32))))
}

/// `validate_icc_matrix`: 0, or the writer's number for its error; 5 stands for every number that
/// does not fit.
///
/// # Panics
/// If a number of the encoding has no meaning.
pub fn validation(encoding: &Encoding) -> u32 {
    let original = encoding.original().expect("a number has no meaning");
    match original.validate_icc_matrix() {
        Ok(()) => 0,
        Err(Error::IccInvalidWhitePointY(_)) => 3,
        Err(Error::IccInvalidWhitePoint(..)) => 4,
        Err(Error::IccValueOutOfRangeS15Fixed16(_)) => 5,
        Err(Error::MatrixInversionFailed(_)) => 6,
        Err(error) => panic!("{encoding:?} meets {error:?}"),
    }
}

/// `create_icc_rgb_matrix`; row by row.
pub fn columns(wx: u32, wy: u32, xy: [u32; 6]) -> Numbers<9> {
    numbers(open::create_icc_rgb_matrix(
        xy.map(f32::from_bits),
        f32::from_bits(wx),
        f32::from_bits(wy),
    ))
}

/// `cie_xyz_from_white_cie_xy`.
pub fn gray_white(wx: u32, wy: u32) -> Numbers<3> {
    let white = open::cie_xyz_from_white_cie_xy(f32::from_bits(wx), f32::from_bits(wy));
    numbers(white.map(|xyz| [xyz]))
}

fn numbers<const ROWS: usize, const N: usize>(
    answer: Result<[[f32; 3]; ROWS], Error>,
) -> Numbers<N> {
    let mut bits = [0; N];
    let status = match answer {
        Ok(rows) => {
            for (bits, value) in bits.iter_mut().zip(rows.as_flattened()) {
                *bits = float_bits(*value);
            }
            0
        }
        Err(Error::IccInvalidWhitePointY(_)) => 3,
        Err(Error::IccInvalidWhitePoint(..)) => 4,
        Err(Error::MatrixInversionFailed(_)) => 6,
        Err(error) => panic!("no piece gives {error:?}"),
    };
    Numbers { status, bits }
}

fn float_bits(value: f32) -> u32 {
    if value.is_nan() { NAN } else { value.to_bits() }
}

/// What `util/linalg.rs` makes of two matrices, as bits: their product, the product of the first with the
/// first row of the second, and the inverse of the first, or None where it is refused. The sign of
/// a zero is left out: a sum of the original starts from a zero.
#[derive(Clone, Copy, Debug, PartialEq, Eq)]
pub struct Linalg {
    pub product: [u64; 9],
    pub applied: [u64; 3],
    pub inverse: Option<[u64; 9]>,
}

pub fn linalg(a: [f64; 9], b: [f64; 9]) -> Linalg {
    let rows = |m: [f64; 9]| [[m[0], m[1], m[2]], [m[3], m[4], m[5]], [m[6], m[7], m[8]]];
    let (a, b) = (rows(a), rows(b));
    Linalg {
        product: double_bits(mul_3x3_matrix(&a, &b).as_flattened()),
        applied: double_bits(&mul_3x3_vector(&a, &b[0])),
        inverse: inv_3x3_matrix(&a)
            .ok()
            .map(|m| double_bits(m.as_flattened())),
    }
}

/// One NaN and one zero.
pub fn double_bits<const N: usize>(values: &[f64]) -> [u64; N] {
    let bits = |value: f64| {
        if value.is_nan() {
            f64::NAN.to_bits()
        } else if value == 0.0 {
            0
        } else {
            value.to_bits()
        }
    };
    std::array::from_fn(|at| bits(values[at]))
}
