use crate::{ffi, refusal::written, Refusal, LONGEST_LISTING};
use std::fmt;

macro_rules! kinds {
    ($($(#[$meaning:meta])* $kind:ident $number:literal $word:literal)*) => {
        /// How a line of two listings differs: of several kinds the first in this order.
        #[derive(Clone, Copy, Debug, PartialEq, Eq, Hash)]
        pub enum Kind {
            $($(#[$meaning])* $kind,)*
        }

        impl Kind {
            /// None for 0, a line that is the same in both.
            fn of_number(number: u8) -> Option<Kind> {
                match number {
                    0 => None,
                    $($number => Some(Kind::$kind),)*
                    _ => unreachable!("no kind has the number {number}"),
                }
            }
        }

        impl fmt::Display for Kind {
            /// The word that folddiff prints.
            fn fmt(&self, f: &mut fmt::Formatter<'_>) -> fmt::Result {
                f.write_str(match self {
                    $(Kind::$kind => $word,)*
                })
            }
        }
    };
}

kinds! {
    /// One listing has ended.
    Missing 1 "missing"
    /// Either line is refused.
    Refusal 2 "refusal"
    /// The types differ; a pair and a lone value do.
    Type 3 "type"
    /// Some lane differs by more than NaN bits or a zero's sign.
    Value 4 "value"
    /// Only NaN bits or zero signs differ, at least one of the former.
    Nan 5 "nan"
    /// Only zero signs differ.
    Zero 6 "zero"
}

/// A line that differs.
#[derive(Clone, Copy, Debug, PartialEq, Eq, Hash)]
pub struct Difference {
    /// Its number, from 1.
    pub line: usize,
    /// How it differs.
    pub kind: Kind,
}

/// The lines of two listings that differ, in order.
#[derive(Clone, Debug)]
pub struct Differences {
    kinds: Vec<u8>,
    line: usize,
}

impl Iterator for Differences {
    type Item = Difference;

    fn next(&mut self) -> Option<Difference> {
        loop {
            let kind = Kind::of_number(*self.kinds.get(self.line)?);
            self.line += 1;
            if let Some(kind) = kind {
                return Some(Difference { line: self.line, kind });
            }
        }
    }
}

/// The lines of two answer listings that differ, with their kinds. A listing has at most [`LONGEST_LISTING`] bytes.
///
/// ```
/// use chanrelout::{diff, Kind};
///
/// let lines: Vec<_> = diff(b"f32:80000000\ni32:00000001\n", b"f32:00000000\ni32:00000001\nbool:1\n")?.collect();
/// assert_eq!(lines.iter().map(|found| (found.line, found.kind)).collect::<Vec<_>>(), [(1, Kind::Zero), (3, Kind::Missing)]);
/// # Ok::<(), chanrelout::Refusal>(())
/// ```
pub fn diff(left: &[u8], right: &[u8]) -> Result<Differences, Refusal> {
    // no listing has more lines than bytes
    let mut kinds = vec![0; left.len().max(right.len()).min(LONGEST_LISTING)];
    let (memory, room) = (kinds.as_mut_ptr(), kinds.len());
    // SAFETY: each pointer and length are those of a slice, and shared and exclusive ones do not overlap.
    let answer = unsafe { ffi::chanrelout_diff(left.as_ptr(), left.len(), right.as_ptr(), right.len(), memory, room) };
    kinds.truncate(written(answer)?);
    Ok(Differences { kinds, line: 0 })
}

/// The first line that differs, as it stands in its listing: the right one, or the one that goes on where the other has
/// ended, without its newline. None where the listings are equal or one is refused.
pub fn first_difference<'a>(left: &'a [u8], right: &'a [u8]) -> Option<&'a str> {
    // SAFETY: each pointer and length are those of a slice.
    let place = unsafe { ffi::chanrelout_first_difference(left.as_ptr(), left.len(), right.as_ptr(), right.len()) };
    let listing = match place >> 32 {
        0 => return None,
        1 => left,
        _ => right,
    };
    let (at, len) = ((place >> 16 & 0xFFFF) as usize, (place & 0xFFFF) as usize);
    Some(std::str::from_utf8(&listing[at..at + len]).expect("an answer line is ASCII"))
}
