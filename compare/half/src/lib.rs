//! half 1.6.0's conversions, its software path, under names that C can call.

use half::f16;

#[no_mangle]
pub extern "C" fn crate_f32_to_f16(bits: u32) -> u16 {
    f16::from_f32(f32::from_bits(bits)).to_bits()
}

#[no_mangle]
pub extern "C" fn crate_f16_to_f32(bits: u16) -> u32 {
    f16::from_bits(bits).to_f32().to_bits()
}

#[no_mangle]
pub extern "C" fn crate_f64_to_f16(bits: u64) -> u16 {
    f16::from_f64(f64::from_bits(bits)).to_bits()
}
