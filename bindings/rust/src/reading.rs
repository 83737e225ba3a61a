/// By which of two readings a call is folded. They differ in six packers: in [`Reading::Text`] pack4xI8Clamp and
/// pack4xU8Clamp clamp each lane, and the four norm packers round down the exact 0.5 + scale times the clamped lane, as
/// the WGSL specification writes them.
#[derive(Clone, Copy, Debug, Default, PartialEq, Eq, Hash)]
pub enum Reading {
    /// As wgsl-types 0.3.2, and as every function that takes no reading.
    #[default]
    Crate,
    /// As the WGSL specification.
    Text,
}

impl Reading {
    pub(crate) fn number(self) -> u64 {
        self as u64
    }
}
