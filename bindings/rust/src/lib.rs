//! WGSL constant folding that nobody has to doubt: safe types over the static library of Chanrelout, whose functions
//! are proved to meet their statements. What each builtin takes and gives is document 01 of that repository.
//!
//! ```
//! use chanrelout::{fold, fold_in, fold_line, sort_listing, Builtin, Loss, Reading, Refusal, Value};
//!
//! let colour = Value::from([1.0f32, 0.5, 0.0, -1.0]);
//! let packed = fold(Builtin::Pack4x8unorm, &[colour])?.first;
//! assert_eq!(packed, Value::from(0x0000_80FFu32));
//! assert_eq!(packed.to_string(), "u32:000080FF");
//! assert_eq!("u32:000080FG".parse::<Value>().map_err(|wrong| wrong.place), Err(12));
//!
//! // The same call as the WGSL specification writes it: the text's reading clamps, the crate's keeps the low bytes.
//! let bytes = [Value::from([256u32, 1, 2, 3])];
//! assert_eq!(fold(Builtin::Pack4xU8Clamp, &bytes)?.first, Value::from(0x0302_0100u32));
//! assert_eq!(fold_in(Reading::Text, Builtin::Pack4xU8Clamp, &bytes)?.first, Value::from(0x0302_01FFu32));
//!
//! // A number that is too large for a half becomes infinite, and the answer says so.
//! assert_eq!(fold(Builtin::Pack2x16float, &[Value::from([0.5f32, 70000.0])])?.loss, Loss::Overflowed);
//!
//! assert_eq!(fold(Builtin::Min, &[Value::from(1), Value::from(1.0f32)]), Err(Refusal::TypesDiffer));
//! assert_eq!(fold_line(b"frexp\tf32:00000001")?, "f32:3F000000\ti32:FFFFFF6C");
//! assert_eq!(fold_line(b"frexp\tf32:0000000g").map_err(|refusal| refusal.number()), Err(11));
//!
//! // One order, NaNs and both zeros included.
//! assert!(Value::from(-0.0f32) < Value::from(0.0f32) && Value::from(f32::INFINITY) < Value::from(f32::NAN));
//! assert_eq!(sort_listing(b"f32:7FC00000\nrefused\t3\nf32:3F800000\n")?, [3, 1, 2]);
//! # Ok::<(), Refusal>(())
//! ```
//!
//! Nothing here allocates but [`fold_line`], [`sort_listing`], [`diff()`] and what prints. All of it may be called from several
//! threads at once.

#![warn(missing_docs)]

mod builtin;
mod call;
mod diff;
mod engine;
mod ffi;
mod line;
mod listing;
mod loss;
mod reading;
mod refusal;
mod value;

pub use builtin::Builtin;
pub use call::{fold, fold_all, fold_all_by, fold_all_words_by, fold_by, fold_in, fold_words, fold_words_by, fold_words_in, Answer, Call, ANSWER_WORDS, CALL_WORDS};
pub use diff::{diff, first_difference, Difference, Differences, Kind};
pub use engine::Engine;
pub use line::{fold_line, fold_line_by, fold_line_in, fold_line_into, fold_line_into_by, fold_line_into_in, LONGEST_ANSWER};
pub use listing::{sort_listing, sort_listing_into, LONGEST_LISTING, MOST_LINES};
pub use loss::{f32_to_f16_told, Loss};
pub use reading::Reading;
pub use refusal::{InLine, Refusal};
pub use value::{BadValue, Fault, Misspelled, Scalar, Size, Type, Value, Width};

/// The half nearest to an `f32`, both as bits: ties to the even one, infinity from halfway past the greatest half.
/// A NaN gives 7E00.
#[inline]
pub fn f32_to_f16(bits: u32) -> u16 {
    // SAFETY: numbers in, a number out.
    unsafe { ffi::chanrelout_f32_to_f16(bits) }
}

/// The `f32` that a half is, both as bits. A NaN gives 7FC00000.
#[inline]
pub fn f16_to_f32(bits: u16) -> u32 {
    // SAFETY: numbers in, a number out.
    unsafe { ffi::chanrelout_f16_to_f32(bits) }
}
