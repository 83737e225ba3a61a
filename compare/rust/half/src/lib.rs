//! half 1.6.0's `f16`, wrapped, with what call.rs takes from later versions of half.
//!
//! The crate's own: every conversion (its software path), comparison, `signum`, the bytes.
//! Decided here: `abs` clears the sign bit, as document 01 says; `is_zero` is the crate's comparison with zero.
//! All other arithmetic goes through f32 and is rounded back, as half's own does. Of the domain only floor, ceil, trunc
//! and the subtraction of fract reach it: f16 in min, max, clamp, saturate, cross, dot and ldexp is outside, and the
//! rest serves builtins that no line names.

#![allow(non_camel_case_types)]

use num_traits::{real::Real, Num, NumCast, One, ToBytes, ToPrimitive, Zero};
use std::cmp::Ordering;
use std::ops::{Add, Div, Mul, Neg, Rem, Sub};

pub mod prelude {
    pub use crate::{f16, RoundTiesEven};
}

#[derive(Clone, Copy, Debug)]
pub struct f16(half16::f16);

impl f16 {
    #[inline]
    pub fn from_bits(bits: u16) -> f16 {
        f16(half16::f16::from_bits(bits))
    }
    #[inline]
    pub fn to_bits(self) -> u16 {
        self.0.to_bits()
    }
    #[inline]
    pub fn from_f32(value: f32) -> f16 {
        f16(half16::f16::from_f32(value))
    }
    #[inline]
    pub fn from_f64(value: f64) -> f16 {
        f16(half16::f16::from_f64(value))
    }
    #[inline]
    pub fn to_f32(self) -> f32 {
        self.0.to_f32()
    }
    #[inline]
    pub fn from_le_bytes(bytes: [u8; 2]) -> f16 {
        f16(half16::f16::from_le_bytes(bytes))
    }
    #[inline]
    pub fn signum(self) -> f16 {
        f16(self.0.signum())
    }
    #[inline]
    pub fn max(self, other: f16) -> f16 {
        f16::from_f32(self.to_f32().max(other.to_f32()))
    }
    #[inline]
    pub fn min(self, other: f16) -> f16 {
        f16::from_f32(self.to_f32().min(other.to_f32()))
    }
}

impl PartialEq for f16 {
    #[inline]
    fn eq(&self, other: &f16) -> bool {
        self.0 == other.0
    }
}

// Each comparison by itself: half 1.6.0 writes all five out.
impl PartialOrd for f16 {
    #[inline]
    fn partial_cmp(&self, other: &f16) -> Option<Ordering> {
        self.0.partial_cmp(&other.0)
    }
    #[inline]
    fn lt(&self, other: &f16) -> bool {
        self.0 < other.0
    }
    #[inline]
    fn le(&self, other: &f16) -> bool {
        self.0 <= other.0
    }
    #[inline]
    fn gt(&self, other: &f16) -> bool {
        self.0 > other.0
    }
    #[inline]
    fn ge(&self, other: &f16) -> bool {
        self.0 >= other.0
    }
}

impl ToBytes for f16 {
    type Bytes = [u8; 2];
    #[inline]
    fn to_le_bytes(&self) -> [u8; 2] {
        self.0.to_le_bytes()
    }
}

impl ToPrimitive for f16 {
    fn to_i64(&self) -> Option<i64> {
        self.0.to_f64().to_i64()
    }
    fn to_u64(&self) -> Option<u64> {
        self.0.to_f64().to_u64()
    }
    #[inline]
    fn to_f32(&self) -> Option<f32> {
        Some(self.0.to_f32())
    }
    #[inline]
    fn to_f64(&self) -> Option<f64> {
        Some(self.0.to_f64())
    }
}

impl NumCast for f16 {
    fn from<T: ToPrimitive>(n: T) -> Option<f16> {
        n.to_f32().map(f16::from_f32)
    }
}

macro_rules! operator {
    ($($name:ident $method:ident),*) => {
        $(impl $name for f16 {
            type Output = f16;
            #[inline]
            fn $method(self, other: f16) -> f16 {
                f16::from_f32($name::$method(self.to_f32(), other.to_f32()))
            }
        })*
    };
}

operator!(Add add, Sub sub, Mul mul, Div div, Rem rem);

impl Neg for f16 {
    type Output = f16;
    fn neg(self) -> f16 {
        f16::from_bits(self.to_bits() ^ 0x8000)
    }
}

impl Zero for f16 {
    fn zero() -> f16 {
        f16::from_bits(0)
    }
    #[inline]
    fn is_zero(&self) -> bool {
        *self == f16::zero()
    }
}

impl One for f16 {
    fn one() -> f16 {
        f16::from_f32(1.0)
    }
}

impl Num for f16 {
    type FromStrRadixErr = <f32 as Num>::FromStrRadixErr;
    fn from_str_radix(s: &str, radix: u32) -> Result<f16, Self::FromStrRadixErr> {
        f32::from_str_radix(s, radix).map(f16::from_f32)
    }
}

macro_rules! through_f32 {
    ($($method:ident($($other:ident),*)),* $(,)?) => {
        $(fn $method(self $(, $other: f16)*) -> f16 {
            f16::from_f32(Real::$method(self.to_f32() $(, $other.to_f32())*))
        })*
    };
}

impl Real for f16 {
    #[inline]
    fn abs(self) -> f16 {
        f16::from_bits(self.to_bits() & 0x7FFF)
    }
    #[inline]
    fn signum(self) -> f16 {
        f16::signum(self)
    }
    fn max(self, other: f16) -> f16 {
        f16::max(self, other)
    }
    fn min(self, other: f16) -> f16 {
        f16::min(self, other)
    }
    fn min_value() -> f16 {
        f16(half16::f16::MIN)
    }
    fn min_positive_value() -> f16 {
        f16(half16::f16::MIN_POSITIVE)
    }
    fn epsilon() -> f16 {
        f16(half16::f16::EPSILON)
    }
    fn max_value() -> f16 {
        f16(half16::f16::MAX)
    }
    fn is_sign_positive(self) -> bool {
        self.0.is_sign_positive()
    }
    fn is_sign_negative(self) -> bool {
        self.0.is_sign_negative()
    }
    fn powi(self, n: i32) -> f16 {
        f16::from_f32(self.to_f32().powi(n))
    }
    fn sin_cos(self) -> (f16, f16) {
        (Real::sin(self), Real::cos(self))
    }
    through_f32! {
        floor(), ceil(), round(), trunc(), fract(), mul_add(a, b), recip(), powf(n), sqrt(), exp(), exp2(), ln(),
        log(base), log2(), log10(), to_degrees(), to_radians(), abs_sub(other), cbrt(), hypot(other), sin(), cos(),
        tan(), asin(), acos(), atan(), atan2(other), exp_m1(), ln_1p(), sinh(), cosh(), tanh(), asinh(), acosh(),
        atanh(),
    }
}

/// `round_ties_even` for compilers older than 1.77; a later compiler's own method comes before it.
/// Only the builtin round calls it.
pub trait RoundTiesEven {
    fn round_ties_even(self) -> Self;
}

macro_rules! round_ties_even {
    ($($float:ty),*) => {
        $(impl RoundTiesEven for $float {
            fn round_ties_even(self) -> $float {
                let rounded = self.round();
                if (self - self.trunc()).abs() == 0.5 && rounded % 2.0 != 0.0 {
                    (rounded - self.signum()).copysign(self)
                } else {
                    rounded
                }
            }
        })*
    };
}

round_ties_even!(f32, f64);
