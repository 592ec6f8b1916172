//! Stands for the original's vector library, so that its PQ and HLG code passes the compiler.
//! That code is never run here (refusal 1 comes first), so there are traits and no vectors.

use std::ops::{Add, Div, Mul, Sub};

pub trait SimdDescriptor: Copy {
    type F32Vec: F32SimdVec<Descriptor = Self>;
    type U8Vec: U8SimdVec<Descriptor = Self>;
}

pub trait F32SimdVec:
    Copy + Add<Output = Self> + Sub<Output = Self> + Mul<Output = Self> + Div<Output = Self>
{
    type Descriptor: SimdDescriptor;
    type Mask: SimdMask<F32Vec = Self>;
    const LEN: usize;

    fn zero(d: Self::Descriptor) -> Self;
    fn splat(d: Self::Descriptor, value: f32) -> Self;
    fn load(d: Self::Descriptor, from: &[f32]) -> Self;
    fn mul_add(self, by: Self, plus: Self) -> Self;
    fn neg_mul_add(self, by: Self, plus: Self) -> Self;
    fn max(self, other: Self) -> Self;
    fn min(self, other: Self) -> Self;
    fn gt(self, other: Self) -> Self::Mask;
    fn round_store_u8(self, into: &mut [u8]);
}

pub trait SimdMask: Copy {
    type F32Vec;

    fn if_then_else_f32(self, then: Self::F32Vec, otherwise: Self::F32Vec) -> Self::F32Vec;
}

pub trait U8SimdVec: Copy {
    type Descriptor;
    const LEN: usize;

    fn load(d: Self::Descriptor, from: &[u8]) -> Self;
    fn store_interleaved_3(a: Self, b: Self, c: Self, into: &mut [u8]);
}

/// Keeps the generic function, for the compiler to check, and gives the caller one that must not
/// be reached.
#[macro_export]
macro_rules! simd_function {
    (
        $caller:ident,
        $d:ident : $descriptor:ident,
        $(#[$attribute:meta])*
        fn $name:ident($($argument:ident : $type:ty),* $(,)?) -> $answer:ty $body:block
    ) => {
        $(#[$attribute])*
        fn $name<$descriptor: SimdDescriptor>(
            $d: $descriptor,
            $($argument: $type),*
        ) -> $answer $body

        fn $caller($(_: $type,)*) -> $answer {
            unreachable!("PQ and HLG are not compared")
        }
    };
}
