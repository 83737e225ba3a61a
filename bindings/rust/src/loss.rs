use crate::ffi;

/// What an `f32` lost that became a half, in the order of their numbers, so that the larger is the worse.
#[derive(Clone, Copy, Debug, PartialEq, Eq, PartialOrd, Ord, Hash)]
pub enum Loss {
    /// Nothing: the half is the same number, or both are an infinity or NaN.
    Exact,
    /// It was rounded to a finite half, which may be a zero.
    Rounded,
    /// A finite number became an infinity.
    Overflowed,
}

impl Loss {
    /// Its number, 0 to 2.
    pub fn number(self) -> u8 {
        self as u8
    }

    /// By its number, as an answer's last word holds it.
    pub(crate) fn from_number(number: u64) -> Loss {
        match number {
            0 => Loss::Exact,
            1 => Loss::Rounded,
            2 => Loss::Overflowed,
            _ => unreachable!("the library tells 0, 1 or 2"),
        }
    }
}

/// The half nearest to an `f32`, both as bits, as [`f32_to_f16`](crate::f32_to_f16) gives it, and what was lost.
#[inline]
pub fn f32_to_f16_told(bits: u32) -> (u16, Loss) {
    // SAFETY: a number in, a number out.
    let told = unsafe { ffi::chanrelout_f32_to_f16_told(bits) };
    (told as u16, Loss::from_number(u64::from(told >> 16)))
}

#[cfg(test)]
mod tests {
    use super::*;
    use crate::f32_to_f16;

    #[test]
    fn a_conversion_tells_what_it_lost() {
        for (bits, loss) in [
            (0x0000_0000, Loss::Exact),
            (0x8000_0000, Loss::Exact),
            (0x3F80_0000, Loss::Exact),
            (0x3380_0000, Loss::Exact), // the least half
            (0x7F80_0000, Loss::Exact),
            (0xFF80_0000, Loss::Exact),
            (0x7FC0_0001, Loss::Exact),
            (0x0000_0001, Loss::Rounded),
            (0x3300_0000, Loss::Rounded), // half of the least half, which becomes 0
            (0x3F80_0001, Loss::Rounded),
            (0x477F_EFFF, Loss::Rounded), // just below 65520
            (0x477F_F000, Loss::Overflowed),
            (0xC77F_F000, Loss::Overflowed),
            (0x7F7F_FFFF, Loss::Overflowed),
        ] {
            assert_eq!(f32_to_f16_told(bits), (f32_to_f16(bits), loss), "{bits:08X}");
        }
        assert!(Loss::Exact < Loss::Rounded && Loss::Rounded < Loss::Overflowed);
    }
}
