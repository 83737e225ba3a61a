use crate::{ffi, refusal::written, Engine, Reading, Refusal};

/// No answer has more bytes.
pub const LONGEST_ANSWER: usize = 311;

/// Folds a line: the builtin's name and its arguments, a tab before each, no newline. The answer has none either.
pub fn fold_line(line: &[u8]) -> Result<String, Refusal> {
    let mut out = [0; LONGEST_ANSWER];
    let answer = fold_line_into(line, &mut out)?;
    Ok(String::from_utf8(answer.to_vec()).expect("an answer is ASCII"))
}

/// The same into lent memory: gives back the part of it that the answer is. The rest of the memory, and all of it
/// where the line is refused, stays as it was. [`LONGEST_ANSWER`] bytes are always enough.
#[inline]
pub fn fold_line_into<'a>(line: &[u8], out: &'a mut [u8]) -> Result<&'a [u8], Refusal> {
    // SAFETY: each pointer and length are those of a slice, and a shared and an exclusive one do not overlap.
    let answer = unsafe { ffi::chanrelout_line(line.as_ptr(), line.len(), out.as_mut_ptr(), out.len()) };
    Ok(&out[..written(answer)?])
}

/// [`fold_line`] in a reading.
pub fn fold_line_in(reading: Reading, line: &[u8]) -> Result<String, Refusal> {
    fold_line_by(reading, Engine::Arithmetic, line)
}

/// [`fold_line`] in a reading, worked out by an engine.
pub fn fold_line_by(reading: Reading, engine: Engine, line: &[u8]) -> Result<String, Refusal> {
    let mut out = [0; LONGEST_ANSWER];
    let answer = fold_line_into_by(reading, engine, line, &mut out)?;
    Ok(String::from_utf8(answer.to_vec()).expect("an answer is ASCII"))
}

/// [`fold_line_into`] in a reading.
#[inline]
pub fn fold_line_into_in<'a>(reading: Reading, line: &[u8], out: &'a mut [u8]) -> Result<&'a [u8], Refusal> {
    fold_line_into_by(reading, Engine::Arithmetic, line, out)
}

/// [`fold_line_into`] in a reading, worked out by an engine.
#[inline]
pub fn fold_line_into_by<'a>(
    reading: Reading,
    engine: Engine,
    line: &[u8],
    out: &'a mut [u8],
) -> Result<&'a [u8], Refusal> {
    let (reading, engine) = (reading.number(), engine.number());
    // SAFETY: each pointer and length are those of a slice, and a shared and an exclusive one do not overlap.
    let answer =
        unsafe { ffi::chanrelout_line_by(reading, engine, line.as_ptr(), line.len(), out.as_mut_ptr(), out.len()) };
    Ok(&out[..written(answer)?])
}
