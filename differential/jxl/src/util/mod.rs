//! `linalg` is the original's file. The two fast functions serve PQ and HLG only.

mod linalg;

use jxl_simd::SimdDescriptor;
pub use linalg::*;

pub fn fast_powf_simd<D: SimdDescriptor>(_: D, _: D::F32Vec, _: D::F32Vec) -> D::F32Vec {
    unreachable!("PQ and HLG are not compared")
}

pub fn fast_cbrtf_simd<D: SimdDescriptor>(_: D, _: D::F32Vec) -> D::F32Vec {
    unreachable!("PQ and HLG are not compared")
}
