use crate::{ffi, refusal::written};
use std::{
    cmp::Ordering,
    error::Error,
    fmt,
    str::{self, FromStr},
};

/// A value's words: the number of its type and 16 lanes.
type Words = [u64; VALUE_WORDS];
pub(crate) const VALUE_WORDS: usize = 1 + LANES;
const LANES: usize = 16;

/// No value's text has more bytes.
const LONGEST_VALUE: usize = 155;

/// A scalar type.
#[derive(Clone, Copy, Debug, PartialEq, Eq, Hash)]
#[allow(missing_docs)]
pub enum Scalar {
    Bool,
    I32,
    U32,
    F32,
    F16,
}

/// How many lanes a vector has, or rows or columns a matrix.
#[derive(Clone, Copy, Debug, PartialEq, Eq, Hash)]
#[allow(missing_docs)]
pub enum Size {
    Two = 2,
    Three = 3,
    Four = 4,
}

/// A matrix's scalar.
#[derive(Clone, Copy, Debug, PartialEq, Eq, Hash)]
#[allow(missing_docs)]
pub enum Width {
    F32,
    F16,
}

/// A type that values have.
#[derive(Clone, Copy, Debug, PartialEq, Eq, Hash)]
pub enum Type {
    /// One scalar.
    Scalar(Scalar),
    /// A vector of scalars.
    Vector(Size, Scalar),
    /// A matrix: columns, rows and scalar.
    Matrix(Size, Size, Width),
}

const SCALARS: [Scalar; 5] = [Scalar::Bool, Scalar::I32, Scalar::U32, Scalar::F32, Scalar::F16];
const SIZES: [Size; 3] = [Size::Two, Size::Three, Size::Four];
const WIDTHS: [Width; 2] = [Width::F32, Width::F16];

impl Scalar {
    /// The greatest lane.
    fn most(self) -> u32 {
        match self {
            Scalar::Bool => 1,
            Scalar::F16 => 0xFFFF,
            Scalar::I32 | Scalar::U32 | Scalar::F32 => 0xFFFF_FFFF,
        }
    }
}

impl Type {
    /// Every type, in the order of their numbers from 1.
    pub fn all() -> impl Iterator<Item = Type> {
        let scalars = SCALARS.iter().map(|&s| Type::Scalar(s));
        let vectors = SIZES.iter().flat_map(|&n| SCALARS.iter().map(move |&s| Type::Vector(n, s)));
        let matrices = WIDTHS
            .iter()
            .flat_map(|&w| SIZES.iter().flat_map(move |&c| SIZES.iter().map(move |&r| Type::Matrix(c, r, w))));
        scalars.chain(vectors).chain(matrices)
    }

    /// The type of each lane.
    pub fn scalar(self) -> Scalar {
        match self {
            Type::Scalar(s) | Type::Vector(_, s) => s,
            Type::Matrix(_, _, Width::F32) => Scalar::F32,
            Type::Matrix(_, _, Width::F16) => Scalar::F16,
        }
    }

    /// How many lanes a value has: 1 to 16.
    pub fn lane_count(self) -> usize {
        match self {
            Type::Scalar(_) => 1,
            Type::Vector(n, _) => n as usize,
            Type::Matrix(c, r, _) => c as usize * r as usize,
        }
    }

    /// Its number in a call's words.
    pub(crate) fn number(self) -> u64 {
        let size = |n: Size| n as u64 - 2;
        match self {
            Type::Scalar(s) => 1 + s as u64,
            Type::Vector(n, s) => 6 + 5 * size(n) + s as u64,
            Type::Matrix(c, r, w) => 21 + 9 * w as u64 + 3 * size(c) + size(r),
        }
    }

    fn of_number(number: u64) -> Option<Type> {
        let place = usize::try_from(number).ok()?.checked_sub(1)?;
        Some(match place {
            0..=4 => Type::Scalar(SCALARS[place]),
            5..=19 => Type::Vector(SIZES[(place - 5) / 5], SCALARS[(place - 5) % 5]),
            20..=37 => {
                let place = place - 20;
                Type::Matrix(SIZES[place / 3 % 3], SIZES[place % 3], WIDTHS[place / 9])
            }
            _ => return None,
        })
    }
}

impl fmt::Display for Type {
    /// As the WGSL text spells it, without spaces: what stands before the colon of its values.
    fn fmt(&self, f: &mut fmt::Formatter<'_>) -> fmt::Result {
        let mut text = [0; LONGEST_VALUE];
        let value = Value { ty: *self, lanes: [0; LANES] };
        f.write_str(value.spell(&mut text).split(':').next().unwrap_or_default())
    }
}

impl FromStr for Type {
    type Err = BadValue;

    /// A type as the WGSL text spells it, without spaces: `f32`, `vec3<u32>`, `mat2x3<f16>`.
    fn from_str(spelling: &str) -> Result<Type, BadValue> {
        Type::all().find(|ty| ty.to_string() == spelling).ok_or(BadValue)
    }
}

/// A value: a type and its lanes as bits, lane 0 first, a matrix column by column. It is always well formed. Two are
/// equal where their types and bits are, so that a NaN equals itself and 0 is not -0. Values stand in one order, that
/// of the repository's docs/ORDER.md: by type, in the order of [`Type::all`], then lane by lane from lane 0, floats by
/// IEEE 754's totalOrder.
#[derive(Clone, Copy, Debug, PartialEq, Eq, Hash)]
pub struct Value {
    ty: Type,
    lanes: [u32; LANES],
}

/// Lanes that are no value of a type, or a text that spells no type.
#[derive(Clone, Copy, Debug, PartialEq, Eq)]
pub struct BadValue;

impl fmt::Display for BadValue {
    fn fmt(&self, f: &mut fmt::Formatter<'_>) -> fmt::Result {
        f.write_str("not a value: as many lanes as the type has, a bool lane 0 or 1, an f16 lane below 65536")
    }
}

impl Error for BadValue {}

/// What is wrong with a text that spells no value: the leftmost fault.
#[derive(Clone, Copy, Debug, PartialEq, Eq, Hash)]
pub enum Fault {
    /// The type is misspelled, or no colon stands behind it.
    Type,
    /// A lane too few or too many.
    Lanes,
    /// A digit that is none, a digit too few or too many, or a bool above 1.
    Digit,
}

impl Fault {
    /// Its number in document 02.
    pub fn number(self) -> u8 {
        match self {
            Fault::Type => 9,
            Fault::Lanes => 10,
            Fault::Digit => 11,
        }
    }

    /// The fault of a number, 9 to 11.
    #[inline]
    pub fn from_number(number: u8) -> Option<Fault> {
        match number {
            9 => Some(Fault::Type),
            10 => Some(Fault::Lanes),
            11 => Some(Fault::Digit),
            _ => None,
        }
    }
}

/// A text that spells no value, or a line with such a one: what is wrong with it, and where.
#[derive(Clone, Copy, Debug, PartialEq, Eq, Hash)]
pub struct Misspelled {
    /// What is wrong.
    pub fault: Fault,
    /// The byte at which it is, counted from 1. The byte after the text where something is missing at its end.
    pub place: usize,
}

impl fmt::Display for Misspelled {
    fn fmt(&self, f: &mut fmt::Formatter<'_>) -> fmt::Result {
        let due = match self.fault {
            Fault::Type => "a type and a colon",
            Fault::Lanes => "as many lanes as the type has",
            Fault::Digit => "an upper-case hex digit, or a comma behind a lane's last",
        };
        write!(f, "not a value: at byte {} {due} was expected", self.place)
    }
}

impl Error for Misspelled {}

impl Misspelled {
    /// What was expected at the place, which is this fault's in the line or the value's text.
    pub(crate) fn expected(self, line: &[u8]) -> &'static str {
        let before = &line[..line.len().min(self.place - 1)];
        let field = before.rsplit(|&byte| byte == b'\t').next().unwrap_or_default();
        let mut parts = field.split(|&byte| byte == b':' || byte == b',');
        let ty = parts.next().and_then(|ty| std::str::from_utf8(ty).ok()?.parse::<Type>().ok());
        let lanes: Vec<&[u8]> = parts.collect();
        let ty = match (self.fault, ty) {
            (Fault::Type, _) | (_, None) => return "a type, as f32 or vec4<f32>, and a colon before a value's lanes",
            (_, Some(ty)) => ty,
        };
        let digits = match ty.scalar() {
            Scalar::Bool => 1,
            Scalar::F16 => 4,
            Scalar::I32 | Scalar::U32 | Scalar::F32 => 8,
        };
        let full = lanes.last().map_or(false, |lane| lane.len() == digits);
        match (self.fault, full, lanes.len() == ty.lane_count()) {
            (_, true, true) => "the end of the value",
            (Fault::Digit, true, false) => "a comma",
            (Fault::Lanes, ..) => "a comma and another lane",
            (..) if ty.scalar() == Scalar::Bool => "0 or 1",
            (..) => "a digit, 0 to 9 or A to F",
        }
    }
}

impl Value {
    /// The value of a type with these lanes. There must be as many as the type has; a bool lane is 0 or 1, an f16 lane
    /// below 65,536.
    pub fn new(ty: Type, lanes: &[u32]) -> Result<Value, BadValue> {
        if lanes.len() != ty.lane_count() || lanes.iter().any(|&lane| lane > ty.scalar().most()) {
            return Err(BadValue);
        }
        let mut value = Value { ty, lanes: [0; LANES] };
        value.lanes[..lanes.len()].copy_from_slice(lanes);
        Ok(value)
    }

    /// An f16, by its bits.
    pub fn f16(bits: u16) -> Value {
        Value::scalar(Scalar::F16, bits.into())
    }

    fn scalar(scalar: Scalar, lane: u32) -> Value {
        let mut lanes = [0; LANES];
        lanes[0] = lane;
        Value { ty: Type::Scalar(scalar), lanes }
    }

    /// Its type.
    pub fn ty(&self) -> Type {
        self.ty
    }

    /// Its lanes, as bits.
    pub fn lanes(&self) -> &[u32] {
        &self.lanes[..self.ty.lane_count()]
    }

    /// Its text.
    fn spell<'a>(&self, text: &'a mut [u8; LONGEST_VALUE]) -> &'a str {
        let words = self.words();
        // SAFETY: each pointer and length are those of a slice, and a shared and an exclusive one do not overlap.
        let answer = unsafe { ffi::chanrelout_write_value(words.as_ptr(), words.len(), text.as_mut_ptr(), text.len()) };
        let length = written(answer).expect("a value is well formed, and has room");
        str::from_utf8(&text[..length]).expect("a value's text is ASCII")
    }

    pub(crate) fn words(&self) -> Words {
        let mut words = [0; VALUE_WORDS];
        words[0] = self.ty.number();
        for (word, &lane) in words[1..].iter_mut().zip(&self.lanes) {
            *word = lane.into();
        }
        words
    }

    /// The value of some words; none where they are the empty value's.
    pub(crate) fn of_words(words: &[u64]) -> Option<Value> {
        let ty = Type::of_number(words[0])?;
        let mut lanes = [0; LANES];
        for (lane, &word) in lanes.iter_mut().zip(&words[1..]) {
            *lane = word as u32;
        }
        Some(Value { ty, lanes })
    }
}

impl Ord for Value {
    fn cmp(&self, other: &Value) -> Ordering {
        let (left, right) = (self.words(), other.words());
        // SAFETY: each pointer and length are those of a slice.
        match unsafe { ffi::chanrelout_compare(left.as_ptr(), left.len(), right.as_ptr(), right.len()) } {
            0 => Ordering::Less,
            1 => Ordering::Equal,
            2 => Ordering::Greater,
            number => unreachable!("well-formed values compare as {number}"),
        }
    }
}

impl PartialOrd for Value {
    fn partial_cmp(&self, other: &Value) -> Option<Ordering> {
        Some(self.cmp(other))
    }
}

macro_rules! from_scalars {
    ($($inner:ty, $scalar:ident, $bits:expr;)*) => {$(
        impl From<$inner> for Value {
            fn from(lane: $inner) -> Value {
                Value::scalar(Scalar::$scalar, $bits(lane))
            }
        }
        from_scalars!(@vector $inner, $scalar, $bits, 2, Two);
        from_scalars!(@vector $inner, $scalar, $bits, 3, Three);
        from_scalars!(@vector $inner, $scalar, $bits, 4, Four);
    )*};
    (@vector $inner:ty, $scalar:ident, $bits:expr, $count:literal, $size:ident) => {
        impl From<[$inner; $count]> for Value {
            fn from(vector: [$inner; $count]) -> Value {
                let mut lanes = [0; LANES];
                lanes[..$count].copy_from_slice(&vector.map($bits));
                Value { ty: Type::Vector(Size::$size, Scalar::$scalar), lanes }
            }
        }
    };
}

from_scalars! {
    bool, Bool, u32::from;
    i32, I32, |lane: i32| lane as u32;
    u32, U32, |lane: u32| lane;
    f32, F32, f32::to_bits;
}

impl fmt::Display for Value {
    /// As a line spells it: `vec2<f32>:3F800000,00000000`.
    fn fmt(&self, f: &mut fmt::Formatter<'_>) -> fmt::Result {
        f.write_str(self.spell(&mut [0; LONGEST_VALUE]))
    }
}

impl FromStr for Value {
    type Err = Misspelled;

    /// A value as a line spells it.
    fn from_str(text: &str) -> Result<Value, Misspelled> {
        let mut words = [0; VALUE_WORDS];
        // SAFETY: each pointer and length are those of a slice, and a shared and an exclusive one do not overlap.
        let answer = unsafe { ffi::chanrelout_read_value(text.as_ptr(), text.len(), words.as_mut_ptr(), words.len()) };
        let number = (answer >> 32) as u8;
        if number == 0 {
            return Ok(Value::of_words(&words).expect("what is read is a value"));
        }
        let fault = Fault::from_number(number).expect("a text is read, or has a fault");
        Err(Misspelled { fault, place: (answer & 0xFFFF_FFFF) as usize })
    }
}
