use std::fmt;

macro_rules! builtins {
    ($($builtin:ident $name:literal)*) => {
        /// A builtin of document 01's table, in its order; then those of Q-3.
        #[derive(Clone, Copy, Debug, PartialEq, Eq, Hash)]
        #[allow(missing_docs)]
        pub enum Builtin {
            $($builtin,)*
        }

        impl Builtin {
            /// Every builtin.
            pub const ALL: &'static [Builtin] = &[$(Builtin::$builtin,)*];

            /// The name that the WGSL text has for it.
            pub fn name(self) -> &'static str {
                match self {
                    $(Builtin::$builtin => $name,)*
                }
            }
        }
    };
}

builtins! {
    All "all"
    Any "any"
    Select "select"
    Abs "abs"
    Sign "sign"
    CountLeadingZeros "countLeadingZeros"
    CountOneBits "countOneBits"
    CountTrailingZeros "countTrailingZeros"
    Min "min"
    Max "max"
    Clamp "clamp"
    Saturate "saturate"
    Step "step"
    Cross "cross"
    Dot "dot"
    Transpose "transpose"
    Frexp "frexp"
    Ldexp "ldexp"
    Bitcast "bitcast"
    Pack4x8snorm "pack4x8snorm"
    Pack4x8unorm "pack4x8unorm"
    Pack4xI8 "pack4xI8"
    Pack4xI8Clamp "pack4xI8Clamp"
    Pack4xU8 "pack4xU8"
    Pack4xU8Clamp "pack4xU8Clamp"
    Pack2x16snorm "pack2x16snorm"
    Pack2x16unorm "pack2x16unorm"
    Pack2x16float "pack2x16float"
    Unpack4x8snorm "unpack4x8snorm"
    Unpack4x8unorm "unpack4x8unorm"
    Unpack4xI8 "unpack4xI8"
    Unpack4xU8 "unpack4xU8"
    Unpack2x16snorm "unpack2x16snorm"
    Unpack2x16unorm "unpack2x16unorm"
    Unpack2x16float "unpack2x16float"
    Floor "floor"
    Ceil "ceil"
    Trunc "trunc"
    Round "round"
    Fract "fract"
}

impl Builtin {
    /// The builtin of that name.
    pub fn from_name(name: &str) -> Option<Builtin> {
        Builtin::ALL.iter().copied().find(|builtin| builtin.name() == name)
    }

    /// Its number in a call's words.
    pub(crate) fn number(self) -> u64 {
        self as u64 + 1
    }
}

impl fmt::Display for Builtin {
    fn fmt(&self, f: &mut fmt::Formatter<'_>) -> fmt::Result {
        f.write_str(self.name())
    }
}
