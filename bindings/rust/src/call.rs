use crate::{ffi, value::VALUE_WORDS, Builtin, Engine, Loss, Reading, Refusal, Type, Value};

const SLOTS: usize = 3;
const HEAD_WORDS: usize = 3;

/// How many words a call has: builtin, count of arguments, bitcast's type, and three values of 17 words, each the
/// number of its type and 16 lanes.
pub const CALL_WORDS: usize = HEAD_WORDS + SLOTS * VALUE_WORDS;

/// How many words an answer has: two values and what was lost.
pub const ANSWER_WORDS: usize = 2 * VALUE_WORDS + 1;

/// The library's own call, on words: bindings/c/chanrelout.h says what stands where. Writes the answer's words to the
/// start of `out`, or nothing where the call is refused.
#[inline]
pub fn fold_words(call: &[u64], out: &mut [u64]) -> Result<(), Refusal> {
    // SAFETY: each pointer and length are those of a slice, and a shared and an exclusive one do not overlap.
    let number = unsafe { ffi::chanrelout_call(call.as_ptr(), call.len(), out.as_mut_ptr(), out.len()) };
    Refusal::from_number(number).map_or(Ok(()), Err)
}

/// The same in a reading.
#[inline]
pub fn fold_words_in(reading: Reading, call: &[u64], out: &mut [u64]) -> Result<(), Refusal> {
    fold_words_by(reading, Engine::Arithmetic, call, out)
}

/// The same in a reading and by an engine, which changes no answer.
#[inline]
pub fn fold_words_by(reading: Reading, engine: Engine, call: &[u64], out: &mut [u64]) -> Result<(), Refusal> {
    let (reading, engine) = (reading.number(), engine.number());
    // SAFETY: each pointer and length are those of a slice, and a shared and an exclusive one do not overlap.
    let number =
        unsafe { ffi::chanrelout_call_by(reading, engine, call.as_ptr(), call.len(), out.as_mut_ptr(), out.len()) };
    Refusal::from_number(number).map_or(Ok(()), Err)
}

/// How many words a result has: an answer's, and its refusal's number.
const RESULT_WORDS: usize = ANSWER_WORDS + 1;

/// A whole material in one call, on words: calls of [`CALL_WORDS`] one after another, and for each the words of its
/// answer and its refusal's number, 0 where it is answered. A call that is refused does not end the work. Nothing is
/// written, and the whole refused by [`Refusal::NoRoom`], where `out` has no room for all results.
#[inline]
pub fn fold_all_words_by(reading: Reading, engine: Engine, calls: &[u64], out: &mut [u64]) -> Result<(), Refusal> {
    let (reading, engine) = (reading.number(), engine.number());
    // SAFETY: each pointer and length are those of a slice, and a shared and an exclusive one do not overlap.
    let number =
        unsafe { ffi::chanrelout_calls_by(reading, engine, calls.as_ptr(), calls.len(), out.as_mut_ptr(), out.len()) };
    Refusal::from_number(number).map_or(Ok(()), Err)
}

/// A call, in the words that the library reads: builtin, count of arguments, bitcast's type, then the arguments.
#[derive(Clone, Copy, Debug, PartialEq, Eq)]
#[repr(transparent)]
pub struct Call {
    words: [u64; CALL_WORDS],
}

/// What a call gives. Only frexp has a second value, the exponent, and only pack2x16float loses something.
#[derive(Clone, Copy, Debug, PartialEq, Eq)]
pub struct Answer {
    /// The value, of frexp the fraction.
    pub first: Value,
    /// frexp's exponent.
    pub second: Option<Value>,
    /// What pack2x16float lost in the lane that lost more; of every other builtin [`Loss::Exact`].
    pub loss: Loss,
}

impl Call {
    /// A call of a builtin but bitcast. Any number of arguments may be given; a wrong one is refused by
    /// [`Call::fold`].
    pub fn new(builtin: Builtin, arguments: &[Value]) -> Call {
        Call::of(builtin, None, arguments, arguments.len())
    }

    /// A bitcast to a type.
    pub fn bitcast(target: Type, value: Value) -> Call {
        Call::of(Builtin::Bitcast, Some(target), &[value], 2)
    }

    fn of(builtin: Builtin, target: Option<Type>, arguments: &[Value], count: usize) -> Call {
        let mut words = [0; CALL_WORDS];
        words[0] = builtin.number();
        words[1] = count as u64;
        words[2] = target.map_or(0, Type::number);
        for (slot, argument) in words[HEAD_WORDS..].chunks_exact_mut(VALUE_WORDS).zip(arguments) {
            slot.copy_from_slice(&argument.words());
        }
        Call { words }
    }

    /// Its words.
    #[inline]
    pub fn words(&self) -> &[u64] {
        &self.words
    }

    /// What the call gives.
    pub fn fold(&self) -> Result<Answer, Refusal> {
        let mut out = [0; ANSWER_WORDS];
        fold_words(self.words(), &mut out)?;
        Ok(Answer::of_words(&out))
    }

    /// What the call gives in a reading.
    pub fn fold_in(&self, reading: Reading) -> Result<Answer, Refusal> {
        self.fold_by(reading, Engine::Arithmetic)
    }

    /// What the call gives in a reading, worked out by an engine.
    pub fn fold_by(&self, reading: Reading, engine: Engine) -> Result<Answer, Refusal> {
        let mut out = [0; ANSWER_WORDS];
        fold_words_by(reading, engine, self.words(), &mut out)?;
        Ok(Answer::of_words(&out))
    }
}

impl Answer {
    fn of_words(words: &[u64; ANSWER_WORDS]) -> Answer {
        let (first, rest) = words.split_at(VALUE_WORDS);
        let (second, loss) = rest.split_at(VALUE_WORDS);
        Answer {
            first: Value::of_words(first).expect("an answer's first value has a type"),
            second: Value::of_words(second),
            loss: Loss::from_number(loss[0]),
        }
    }
}

/// What a builtin gives for some arguments. A bitcast is [`Call::bitcast`].
pub fn fold(builtin: Builtin, arguments: &[Value]) -> Result<Answer, Refusal> {
    Call::new(builtin, arguments).fold()
}

/// The same in a reading.
pub fn fold_in(reading: Reading, builtin: Builtin, arguments: &[Value]) -> Result<Answer, Refusal> {
    Call::new(builtin, arguments).fold_in(reading)
}

/// The same in a reading, worked out by an engine.
pub fn fold_by(
    reading: Reading,
    engine: Engine,
    builtin: Builtin,
    arguments: &[Value],
) -> Result<Answer, Refusal> {
    Call::new(builtin, arguments).fold_by(reading, engine)
}

/// A whole material in one call: result k is what `calls[k].fold()` gives. Results past the last call stay as they were.
///
/// # Errors
///
/// [`Refusal::NoRoom`] where there are fewer results than calls; all results stay as they were then.
pub fn fold_all(calls: &[Call], results: &mut [Result<Answer, Refusal>]) -> Result<(), Refusal> {
    fold_all_by(Reading::Crate, Engine::Arithmetic, calls, results)
}

/// The same in a reading and by an engine, which are chosen once for all calls.
///
/// # Errors
///
/// As [`fold_all`].
pub fn fold_all_by(
    reading: Reading,
    engine: Engine,
    calls: &[Call],
    results: &mut [Result<Answer, Refusal>],
) -> Result<(), Refusal> {
    if results.len() < calls.len() {
        return Err(Refusal::NoRoom);
    }
    let mut out = [0; AT_A_TIME * RESULT_WORDS];
    for (calls, results) in calls.chunks(AT_A_TIME).zip(results.chunks_mut(AT_A_TIME)) {
        let out = &mut out[..calls.len() * RESULT_WORDS];
        fold_all_words_by(reading, engine, words_of(calls), out).expect("there is room for all results");
        for (words, result) in out.chunks_exact(RESULT_WORDS).zip(results) {
            let (answer, refusal) = words.split_at(ANSWER_WORDS);
            *result = match Refusal::from_number(refusal[0] as u8) {
                None => Ok(Answer::of_words(answer.try_into().expect("an answer's words"))),
                Some(refusal) => Err(refusal),
            };
        }
    }
    Ok(())
}

/// So many results' words, some nine kilobytes, are asked of the library at once.
const AT_A_TIME: usize = 32;

/// The words of calls, one after another, where they stand.
fn words_of(calls: &[Call]) -> &[u64] {
    // SAFETY: a call is laid out as its array of words, so that a slice of calls is so many words one after another.
    unsafe { std::slice::from_raw_parts(calls.as_ptr().cast(), calls.len() * CALL_WORDS) }
}

#[cfg(test)]
mod tests {
    use super::*;
    use crate::Scalar;

    #[test]
    fn a_material_gives_what_its_calls_give() {
        let one = Value::from(1.0f32);
        let mut calls: Vec<Call> = (0..100)
            .map(|i| match i % 4 {
                0 => Call::new(Builtin::Pack2x16float, &[Value::from([0.1f32, i as f32 * 1000.0])]),
                1 => Call::new(Builtin::Min, &[one, Value::from(i)]),
                2 => Call::new(Builtin::Frexp, &[Value::from(i as f32)]),
                _ => Call::bitcast(Type::Scalar(Scalar::U32), Value::from(i as f32)),
            })
            .collect();
        for reading in [Reading::Crate, Reading::Text] {
            for engine in [Engine::Arithmetic, Engine::Tables] {
                let mut results = vec![Err(Refusal::LineTooLong); 103];
                assert_eq!(fold_all_by(reading, engine, &calls, &mut results[..99]), Err(Refusal::NoRoom));
                assert!(results.iter().all(|result| *result == Err(Refusal::LineTooLong)));
                assert_eq!(fold_all_by(reading, engine, &calls, &mut results), Ok(()));
                let alone: Vec<_> = calls.iter().map(|call| call.fold_by(reading, engine)).collect();
                assert_eq!(results[..100], alone);
                assert!(results[100..].iter().all(|result| *result == Err(Refusal::LineTooLong)));
                assert!(alone.contains(&Err(Refusal::TypesDiffer)));
            }
            calls.reverse();
        }
        assert_eq!(fold_all(&[], &mut []), Ok(()));
    }

    #[test]
    fn readings_differ_in_six_packers() {
        let texts = |words: u32| Value::from(words);
        let close = f32::from_bits(0x3B00_8080);
        for (builtin, argument, crates, text) in [
            (Builtin::Pack4x8unorm, Value::from([close, 0.0, 0.0, 0.0]), texts(1), texts(0)),
            (Builtin::Pack4x8snorm, Value::from([f32::from_bits(0x3B81_0204), 0.0, 0.0, 0.0]), texts(1), texts(0)),
            (Builtin::Pack2x16unorm, Value::from([f32::from_bits(0x3700_0080), 0.0]), texts(1), texts(0)),
            (Builtin::Pack2x16snorm, Value::from([f32::from_bits(0x3780_0100), 0.0]), texts(1), texts(0)),
            (Builtin::Pack4xI8Clamp, Value::from([-1, 0, 128, -129]), texts(0xFFFF_FFFF), texts(0x807F_00FF)),
            (Builtin::Pack4xU8Clamp, Value::from([256u32, 1, 2, 3]), texts(0x0302_0100), texts(0x0302_01FF)),
            (Builtin::Pack4xU8, Value::from([256u32, 1, 2, 3]), texts(0x0302_0100), texts(0x0302_0100)),
        ] {
            let call = Call::new(builtin, &[argument]);
            assert_eq!(call.fold().unwrap().first, crates, "{builtin}");
            assert_eq!(call.fold_in(Reading::Crate), call.fold());
            assert_eq!(call.fold_in(Reading::Text).unwrap().first, text, "{builtin}");
        }
        assert_eq!(Reading::default(), Reading::Crate);
    }

    #[test]
    fn engines_agree() {
        let lanes = [f32::NAN, f32::INFINITY, -0.0, 0.5, -1.0, 1.0e-45, f32::from_bits(0x3B00_8080), 0.999];
        for (i, &x) in lanes.iter().enumerate() {
            let four = Value::from([x, lanes[(i + 1) % 8], lanes[(i + 3) % 8], -x]);
            let word = Value::from(0x80FF_7F01u32.rotate_left(i as u32));
            for reading in [Reading::Crate, Reading::Text] {
                for (builtin, argument) in [
                    (Builtin::Pack4x8snorm, four),
                    (Builtin::Pack4x8unorm, four),
                    (Builtin::Unpack4x8snorm, word),
                    (Builtin::Unpack4x8unorm, word),
                    (Builtin::Floor, four),
                ] {
                    let by = |engine| fold_by(reading, engine, builtin, &[argument]);
                    assert_eq!(by(Engine::Tables), by(Engine::Arithmetic), "{builtin} {argument}");
                    assert_eq!(by(Engine::Arithmetic), fold_in(reading, builtin, &[argument]));
                }
            }
        }
        assert_eq!(Engine::default(), Engine::Arithmetic);
    }

    #[test]
    fn a_number_that_is_no_reading_or_no_engine_is_refused() {
        let call = Call::new(Builtin::Abs, &[Value::from(1.0f32)]);
        for (reading, engine) in [(2, 0), (u64::MAX, 1), (0, 2), (1, u64::MAX)] {
            let mut out = [7; ANSWER_WORDS];
            let words = call.words();
            // SAFETY: each pointer and length are those of a slice, and they do not overlap.
            let number = unsafe {
                ffi::chanrelout_call_by(reading, engine, words.as_ptr(), words.len(), out.as_mut_ptr(), out.len())
            };
            assert_eq!(number, 1);
            assert_eq!(out, [7; ANSWER_WORDS]);
        }
    }

    /// What words are refused by; memory lent to a refused call stays.
    fn refused(words: &[u64], room: usize) -> Option<Refusal> {
        let mut out = vec![7; room];
        let refusal = fold_words(words, &mut out).err();
        assert!(refusal.is_none() || out.iter().all(|&word| word == 7));
        refusal
    }

    #[test]
    fn broken_words_are_refused() {
        let call = Call::new(Builtin::Max, &[Value::from([1, 2, 3]), Value::from([3, 2, 1])]);
        let words = &call.words()[..HEAD_WORDS + 2 * VALUE_WORDS];
        assert_eq!(refused(words, ANSWER_WORDS), None);
        assert_eq!(refused(call.words(), 40), None);
        assert_eq!(refused(words, 34), Some(Refusal::NoRoom));
        assert_eq!(refused(&[], ANSWER_WORDS), Some(Refusal::UnknownBuiltin));
        for len in 0..words.len() {
            let refusal = match len {
                0 => Refusal::UnknownBuiltin,
                1 => Refusal::ArgumentCount,
                _ => Refusal::BadValue,
            };
            assert_eq!(refused(&words[..len], ANSWER_WORDS), Some(refusal), "{len} words");
        }
        let with = |place: usize, word: u64| {
            let mut words = call.words;
            words[place] = word;
            refused(&words, ANSWER_WORDS)
        };
        for number in [0, 41, u64::MAX] {
            assert_eq!(with(0, number), Some(Refusal::UnknownBuiltin));
        }
        for count in [0, 1, 3, u64::MAX] {
            assert_eq!(with(1, count), Some(Refusal::ArgumentCount));
        }
        for ty in [0, 39, 1 << 32, u64::MAX] {
            assert_eq!(with(3, ty), Some(Refusal::BadValue));
        }
        assert_eq!(with(4, 1 << 32), Some(Refusal::BadValue), "a lane too wide");
        assert_eq!(with(7, 1), Some(Refusal::BadValue), "a lane that the type has not");
        assert_eq!(with(2, u64::MAX), None, "a type that is not asked for");
        assert_eq!(with(53, u64::MAX), None, "an argument that is not asked for");
    }

    #[test]
    fn words_past_the_answer_stay() {
        let call = Call::new(Builtin::Abs, &[Value::from(-5)]);
        let mut out = [7; 40];
        assert_eq!(fold_words(&call.words, &mut out), Ok(()));
        assert_eq!(out[..2], [2, 5]);
        assert!(out[2..35].iter().all(|&word| word == 0) && out[35..].iter().all(|&word| word == 7));
    }

    #[test]
    fn a_bitcast_counts_its_type() {
        let answer = Call::bitcast(Type::Scalar(crate::Scalar::U32), Value::from(1.0f32)).fold();
        assert_eq!(answer, Ok(Answer { first: Value::from(0x3F80_0000u32), second: None, loss: Loss::Exact }));
        assert_eq!(fold(Builtin::Bitcast, &[Value::from(1.0f32)]), Err(Refusal::ArgumentCount));
        assert_eq!(fold(Builtin::Bitcast, &[Value::from(1), Value::from(1)]), Err(Refusal::BadValue));
    }

    #[test]
    fn halves_tell_what_they_lost() {
        let lost = |x: f32, y: f32| fold(Builtin::Pack2x16float, &[Value::from([x, y])]).map(|answer| answer.loss);
        assert_eq!(lost(1.0, f32::INFINITY), Ok(Loss::Exact));
        assert_eq!(lost(f32::NAN, -0.0), Ok(Loss::Exact));
        assert_eq!(lost(0.1, 1.0), Ok(Loss::Rounded));
        assert_eq!(lost(1.0, f32::MIN_POSITIVE), Ok(Loss::Rounded), "a number that becomes a zero");
        assert_eq!(lost(65520.0, 0.1), Ok(Loss::Overflowed));
        assert_eq!(lost(0.1, -65520.0), Ok(Loss::Overflowed));
        assert_eq!(lost(1.0, 65519.99), Ok(Loss::Rounded));
        let other = fold(Builtin::Pack2x16unorm, &[Value::from([0.1f32, 70000.0])]).map(|answer| answer.loss);
        assert_eq!(other, Ok(Loss::Exact), "of other builtins nothing is told");
    }
}
