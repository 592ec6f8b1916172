//! `color` is the original's file with one module added after it, which opens three functions
//! that are private there.

#[allow(dead_code)]
pub mod color {
    include!("color.rs");

    /// The original's private functions, opened.
    pub mod open {
        use crate::error::Error;
        use crate::util::Matrix3x3;

        pub fn append_s15_fixed_16(tags_data: &mut Vec<u8>, value: f32) -> Result<(), Error> {
            super::append_s15_fixed_16(tags_data, value)
        }

        pub fn cie_xyz_from_white_cie_xy(wx: f32, wy: f32) -> Result<[f32; 3], Error> {
            super::cie_xyz_from_white_cie_xy(wx, wy)
        }

        pub fn adapt_to_xyz_d50(wx: f32, wy: f32) -> Result<Matrix3x3<f64>, Error> {
            super::adapt_to_xyz_d50(wx, wy)
        }

        /// The primaries in the order rx, ry, gx, gy, bx, by.
        pub fn create_icc_rgb_matrix(
            [rx, ry, gx, gy, bx, by]: [f32; 6],
            wx: f32,
            wy: f32,
        ) -> Result<Matrix3x3<f32>, Error> {
            super::create_icc_rgb_matrix(rx, ry, gx, gy, bx, by, wx, wy)
        }
    }
}

pub mod xyb_constants;

pub use color::JxlColorEncoding;
