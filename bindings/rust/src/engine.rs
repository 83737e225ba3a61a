/// By which of two engines a call is folded. What it gives is the same by both, which is proved; they differ in what a
/// processor does for it.
#[derive(Clone, Copy, Debug, Default, PartialEq, Eq, Hash)]
pub enum Engine {
    /// By arithmetic, as every function that takes no engine.
    #[default]
    Arithmetic,
    /// By tables where there are some, and by arithmetic elsewhere: in [`Reading::Crate`](crate::Reading::Crate)
    /// pack4x8snorm and pack4x8unorm, and in both readings unpack4x8snorm and unpack4x8unorm, then do without a float
    /// operation. For a processor that multiplies and divides floats slowly.
    Tables,
}

impl Engine {
    pub(crate) fn number(self) -> u64 {
        self as u64
    }
}
