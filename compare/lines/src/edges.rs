//! Lanes at the edges.

use crate::types::Scalar;

pub fn edges(scalar: Scalar) -> &'static [u32] {
    match scalar {
        Scalar::Bool => &[0, 1],
        Scalar::I32 | Scalar::U32 => WHOLE,
        Scalar::F32 => SINGLE,
        Scalar::F16 => HALF,
    }
}

#[rustfmt::skip]
const WHOLE: &[u32] = &[
    0, 1, 2, 3, 0x7F, 0x80, 0xFF, 0x100, 0x7FFF, 0x8000, 0xFFFF, 0x1_0000, 0x5555_5555, 0x7FFF_FFFE, 0x7FFF_FFFF,
    0x8000_0000, 0x8000_0001, 0xAAAA_AAAA, 0xFFFF_7FFF, 0xFFFF_8000, 0xFFFF_FF7F, 0xFFFF_FF80, 0xFFFF_FFFE,
    0xFFFF_FFFF,
];

#[rustfmt::skip]
const SINGLE: &[u32] = &[
    // Zeros, the least and the greatest subnormal, the least normal.
    0, 0x8000_0000, 1, 0x8000_0001, 0x007F_FFFF, 0x807F_FFFF, 0x0080_0000, 0x8080_0000,
    // The greatest finite, infinities.
    0x7F7F_FFFF, 0xFF7F_FFFF, 0x7F80_0000, 0xFF80_0000,
    // NaN: quiet and signalling, both signs, with and without payload.
    0x7FC0_0000, 0xFFC0_0000, 0x7F80_0001, 0xFF80_0001, 0x7FFF_FFFF, 0xFFFF_FFFF, 0x7FBF_FFFF, 0xFFA0_0000,
    // One and its neighbours, halves.
    0x3F80_0000, 0xBF80_0000, 0x3F7F_FFFF, 0x3F80_0001, 0xBF80_0001, 0x3F00_0000, 0xBF00_0000,
    // Where the f32 steps of a packer leave the exact formula; where halves turn.
    0x3B00_8080, 0x3300_0000, 0x3300_0001, 0x477F_EFFF, 0x477F_F000,
];

#[rustfmt::skip]
const HALF: &[u32] = &[
    0, 0x8000, 1, 0x8001, 0x03FF, 0x83FF, 0x0400, 0x8400, 0x7BFF, 0xFBFF, 0x7C00, 0xFC00, 0x7E00, 0xFE00, 0x7C01,
    0xFC01, 0x7FFF, 0xFFFF, 0x7DFF, 0x3C00, 0xBC00, 0x3BFF, 0x3C01, 0x3800,
];

/// Exponents of ldexp: around f32's limits, around the steps of `scalbn`, and the ends.
#[rustfmt::skip]
pub const EXPONENTS: &[i32] = &[
    0, 1, -1, 2, -2, 22, 23, 24, -22, -23, -24, 125, 126, 127, 128, 129, -125, -126, -127, -128, -148, -149, -150,
    -151, 253, 254, 255, 276, 277, 278, -253, -254, -255, -276, -277, -278, -279, 968, 969, 970, -968, -969, -970,
    1022, 1023, 1024, -1021, -1022, -1023, -1024, 2045, 2046, 2047, -1938, -1991, -2046, 3068, 3069, 3070, -2960,
    -3000, 65535, -65536, i32::MAX, i32::MAX - 1, i32::MIN, i32::MIN + 1,
];
