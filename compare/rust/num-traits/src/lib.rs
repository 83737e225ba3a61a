//! num-traits 0.2.15, and `ToBytes`, which came with 0.2.16.

pub use traits::*;

/// A number as its bytes. Only the order that call.rs asks for.
pub trait ToBytes {
    type Bytes;
    fn to_le_bytes(&self) -> Self::Bytes;
}

macro_rules! to_bytes {
    ($($number:ty: $size:literal),*) => {
        $(impl ToBytes for $number {
            type Bytes = [u8; $size];
            #[inline]
            fn to_le_bytes(&self) -> [u8; $size] {
                <$number>::to_le_bytes(*self)
            }
        })*
    };
}

to_bytes!(i32: 4, u32: 4, f32: 4, i64: 8, u64: 8, f64: 8);
