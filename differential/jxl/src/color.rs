//! The transfer functions of PQ and HLG. Those two curves are refused before the original is
//! called, so none of these is run.

pub mod tf {
    use jxl_simd::SimdDescriptor;

    pub fn hlg_to_scene(_: &mut [f32]) {
        unreachable!("HLG is not compared")
    }

    pub fn pq_to_linear_precise(_: f32, _: &mut [f32]) {
        unreachable!("PQ is not compared")
    }

    pub fn pq_to_linear_simd_vec<D: SimdDescriptor>(_: D, _: D::F32Vec, _: D::F32Vec) -> D::F32Vec {
        unreachable!("PQ is not compared")
    }

    pub fn linear_to_pq_simd_vec<D: SimdDescriptor>(
        _: D,
        _: D::F32Vec,
        _: D::F32Vec,
        _: D::F32Vec,
    ) -> D::F32Vec {
        unreachable!("PQ is not compared")
    }
}
