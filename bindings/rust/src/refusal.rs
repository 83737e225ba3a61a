use crate::{Fault, Misspelled};
use std::{error::Error, fmt};

macro_rules! refusals {
    ($($(#[$meaning:meta])* $refusal:ident $number:literal $said:literal)*) => {
        /// Why a call is not answered, or a listing not sorted. Each has its number in documents 01 and 02; of several
        /// reasons the first in the order 7, 1, 2, 3, 4, 5, 6, 8 is given of a call, and in the order 15, 17, 14, 8 of
        /// a listing. A line is never refused by 3: it is misspelled, which is told with its place.
        #[derive(Clone, Copy, Debug, PartialEq, Eq, Hash)]
        #[non_exhaustive]
        pub enum Refusal {
            $($(#[$meaning])* $refusal,)*
            /// A value of the line, or bitcast's type, is misspelled, with what is wrong and at which byte of the
            /// line: the numbers 9 to 11. [`Refusal::in_line`] shows it.
            Misspelled(Misspelled),
            /// A number that this crate does not know, which the library may give where it is newer than the crate.
            /// [`Refusal::from_number`] never puts a number here that another refusal has.
            Other(u8),
        }

        impl Refusal {
            /// Its number in documents 01 and 02.
            pub fn number(self) -> u8 {
                match self {
                    $(Refusal::$refusal => $number,)*
                    Refusal::Misspelled(misspelled) => misspelled.fault.number(),
                    Refusal::Other(number) => number,
                }
            }

            /// The refusal of a number; none for 0 alone, which is no refusal. Of 9 to 11 the place is not known, and 0.
            #[inline]
            pub fn from_number(number: u8) -> Option<Refusal> {
                match number {
                    0 => None,
                    $($number => Some(Refusal::$refusal),)*
                    _ => Some(match Fault::from_number(number) {
                        Some(fault) => Refusal::Misspelled(Misspelled { fault, place: 0 }),
                        None => Refusal::Other(number),
                    }),
                }
            }
        }

        impl fmt::Display for Refusal {
            fn fmt(&self, f: &mut fmt::Formatter<'_>) -> fmt::Result {
                match self {
                    $(Refusal::$refusal => f.write_str($said),)*
                    Refusal::Misspelled(misspelled) => misspelled.fmt(f),
                    Refusal::Other(number) => write!(f, "refused by {number}, a number that is not known here"),
                }
            }
        }
    };
}

refusals! {
    /// No builtin has that name.
    UnknownBuiltin 1 "no builtin has that name"
    /// The builtin takes another number of arguments; bitcast's type counts as one.
    ArgumentCount 2 "the builtin takes another number of arguments"
    /// A value is misspelled or not well formed, or bitcast's type is none.
    BadValue 3 "a value or bitcast's type is misspelled or not well formed"
    /// The builtin does not take an argument of that type in that place.
    TypeNotTaken 4 "the builtin does not take an argument of that type in that place"
    /// Each argument alone is taken, but not together.
    TypesDiffer 5 "the arguments are each taken, but not together"
    /// The two types of a bitcast have different sizes.
    SizesDiffer 6 "bitcast's two types have different sizes"
    /// The line has more than 400 bytes.
    LineTooLong 7 "the line has more than 400 bytes"
    /// The memory lent for the answer is too short.
    NoRoom 8 "the memory lent for the answer is too short"
    /// A line of the listing is no answer line.
    NoAnswerLine 14 "a line of the listing is no answer line"
    /// The listing has more than 32,768 bytes.
    ListingTooLong 15 "the listing has more than 32,768 bytes"
    /// The listing has more than 512 lines.
    TooManyLines 17 "the listing has more than 512 lines"
}

impl Error for Refusal {}

impl Refusal {
    /// The refusal of a line as a reader wants it: of a misspelled one the line with a caret under the byte, and what
    /// was expected there; of another what [`fmt::Display`] says. A tab is shown as `→`, a byte that cannot be shown
    /// as `·`.
    ///
    /// ```
    /// let line = b"abs\ti32:0000000G";
    /// let refusal = chanrelout::fold_line(line).unwrap_err();
    /// assert_eq!(
    ///     refusal.in_line(line).to_string(),
    ///     "misspelled at byte 16: expected a digit, 0 to 9 or A to F\n    abs→i32:0000000G\n                   ^"
    /// );
    /// ```
    pub fn in_line(self, line: &[u8]) -> InLine<'_> {
        InLine { refusal: self, line }
    }
}

/// A refusal and the line that is refused: see [`Refusal::in_line`].
#[derive(Clone, Copy, Debug)]
pub struct InLine<'a> {
    refusal: Refusal,
    line: &'a [u8],
}

impl fmt::Display for InLine<'_> {
    fn fmt(&self, f: &mut fmt::Formatter<'_>) -> fmt::Result {
        let misspelled = match self.refusal {
            Refusal::Misspelled(misspelled) if misspelled.place > 0 => misspelled,
            other => return other.fmt(f),
        };
        let shown: String = self.line.iter().map(|&byte| shown(byte)).collect();
        let place = misspelled.place;
        writeln!(f, "misspelled at byte {place}: expected {}", misspelled.expected(self.line))?;
        writeln!(f, "    {shown}")?;
        write!(f, "    {:>place$}", '^')
    }
}

/// One column a byte.
fn shown(byte: u8) -> char {
    match byte {
        b'\t' => '→',
        b' '..=b'~' => byte as char,
        _ => '·',
    }
}

/// What the library answers for a line or a listing: a number times 2^32, and how many bytes or entries it wrote, or at
/// which byte of a line a fault is. Only where the number is 0 is it an answer.
#[inline]
pub(crate) fn written(answer: u64) -> Result<usize, Refusal> {
    // no refusal has a number above 255
    let number = u8::try_from(answer >> 32).unwrap_or(u8::MAX);
    let count = (answer & 0xFFFF_FFFF) as usize;
    match Refusal::from_number(number) {
        None => Ok(count),
        Some(Refusal::Misspelled(misspelled)) => Err(Refusal::Misspelled(Misspelled { place: count, ..misspelled })),
        Some(refusal) => Err(refusal),
    }
}

#[cfg(test)]
mod tests {
    use super::*;
    use crate::fold_line;

    const KNOWN: [u8; 14] = [1, 2, 3, 4, 5, 6, 7, 8, 9, 10, 11, 14, 15, 17];

    #[test]
    fn every_number_comes_back() {
        assert_eq!(Refusal::from_number(0), None);
        for number in 1..=u8::MAX {
            let refusal = Refusal::from_number(number).unwrap();
            assert_eq!(refusal.number(), number);
            assert_eq!(refusal == Refusal::Other(number), !KNOWN.contains(&number), "{number}");
        }
    }

    #[test]
    fn only_0_is_an_answer() {
        for length in [0, 1, 311, 0xFFFF_FFFF] {
            assert_eq!(written(length), Ok(length as usize));
            for number in 1..=u8::MAX {
                assert_eq!(written(u64::from(number) << 32 | length).map_err(Refusal::number), Err(number));
            }
            for number in [0x100, 0xFFFF_FF00, 0xFFFF_FFFF] {
                assert!(written(number << 32 | length).is_err(), "{number:X}");
            }
        }
    }

    #[test]
    fn a_misspelled_line_is_shown_with_a_caret() {
        for (line, caret, expected) in [
            ("abs\ti32:0000000G", 16, "a digit, 0 to 9 or A to F"),
            ("abs\ti32:0000000", 16, "a digit, 0 to 9 or A to F"),
            ("abs\ti32:000000000", 17, "the end of the value"),
            ("abs\tvec2<i32>:000000000,00000000", 23, "a comma"),
            ("all\tvec2<bool>:1,2", 18, "0 or 1"),
            ("abs\tvec2<f16>:3C00", 19, "a comma and another lane"),
            ("abs\tvec2<f16>:3C00,0000,0000", 24, "the end of the value"),
            ("min\ti32:00000001\tint:00000001", 18, "a type, as f32 or vec4<f32>, and a colon before a value's lanes"),
            ("bitcast\tvec4f\tu32:00000000", 9, "a type, as f32 or vec4<f32>, and a colon before a value's lanes"),
        ] {
            let refusal = fold_line(line.as_bytes()).unwrap_err();
            let message = refusal.in_line(line.as_bytes()).to_string();
            let lines: Vec<&str> = message.split('\n').collect();
            assert_eq!(lines[0], format!("misspelled at byte {caret}: expected {expected}"), "{line}");
            assert_eq!(lines[1], format!("    {}", line.replace('\t', "→")));
            assert_eq!((lines[2].trim_start(), lines[2].len()), ("^", 4 + caret));
        }
        assert_eq!(Refusal::TypesDiffer.in_line(b"").to_string(), Refusal::TypesDiffer.to_string());
    }
}
