//! bench LINES FOLDLINES RUSTLINES FOLDSORT [WORD..]: folds the lines of a file by both sides and prints how fast each
//! is; then compares values and sorts a listing by both.
//!
//! LINES is a file of lines, FOLDLINES, RUSTLINES and FOLDSORT are the programs; WORDs, if any, are put before each, to
//! run it under an emulator. Both sides take the same inputs in turns, and of each the fastest turn counts: what
//! else the machine does only ever slows a turn down.

mod child;

use chanrelout::{fold_all, fold_all_words_by, fold_line, fold_words, fold_words_by, Builtin, Engine, Reading, Refusal, ANSWER_WORDS, CALL_WORDS, LONGEST_LISTING, MOST_LINES};
use std::{
    cmp::Ordering,
    env, fs,
    hint::black_box,
    time::{Duration, Instant},
};

const TURNS: usize = 9;

fn main() {
    let words: Vec<String> = env::args().collect();
    let (lines, foldlines, rustlines, foldsort, emulator) = match &words[..] {
        [_, lines, foldlines, rustlines, foldsort, emulator @ ..] => (lines, foldlines, rustlines, foldsort, emulator),
        _ => panic!("usage: bench LINES FOLDLINES RUSTLINES FOLDSORT [WORD..]"),
    };
    let text = fs::read(lines).expect("the file of lines");
    rustlines::quiet_panics();
    println!("{:<26} {:>14} {:>14} {:>8}", "", "ours", "the Rust", "ratio");
    part("record calls");
    records(&text);
    part("materials");
    materials(&text);
    part("lines");
    programs(&text, foldlines, rustlines, emulator);
    part("nested calls");
    nested(foldlines, emulator);
    part("abs and the roundings");
    roundings(foldlines, rustlines, emulator);
    part("engines");
    engines();
    part("half conversions");
    halves();
    part("the order of two values");
    orders();
    part("listings");
    listings(&text, foldsort, emulator);
}

/// Tells how far the run is.
fn part(what: &str) {
    eprintln!("bench: {what}");
}

/// Two sides in turns; the fastest turn of each.
fn in_turns(mut ours: impl FnMut() -> Duration, mut theirs: impl FnMut() -> Duration) -> (Duration, Duration) {
    let mut best = (Duration::MAX, Duration::MAX);
    for _ in 0..TURNS {
        best.0 = best.0.min(ours());
        best.1 = best.1.min(theirs());
    }
    best
}

fn timed(work: impl FnOnce()) -> Duration {
    let start = Instant::now();
    work();
    start.elapsed()
}

/// A line of the table, in things a second.
fn report(what: &str, count: usize, (ours, theirs): (Duration, Duration)) {
    let rate = |time: Duration| count as f64 / time.as_secs_f64() / 1e6;
    let ratio = theirs.as_secs_f64() / ours.as_secs_f64();
    println!("{:<26} {:>10.2} M/s {:>10.2} M/s {:>8.2}", what, rate(ours), rate(theirs), ratio);
}

// ---- records: the calls that both sides answer

/// So many that no branch is learnt by heart, and so few that their words, 440 bytes a call, stay in the processor's
/// cache, as those of a caller do who has just written them.
const FEW: usize = 1024;
/// So many that the words come from memory.
const MANY: usize = 65536;
/// Calls in a turn.
const TURN: usize = 4 * MANY;

fn records(text: &[u8]) {
    let (ours, theirs) = answered(text, MANY);
    for (what, most) in [("record calls", FEW), ("record calls, memory", MANY)] {
        let count = ours.len().min(most);
        let rounds = TURN / count;
        report(what, rounds * count, folded(fold_words, &ours[..count], &theirs[..count], rounds));
    }
}

/// The first calls of a text that both sides answer, so many at most.
fn answered(text: &[u8], most: usize) -> (Vec<chanrelout::Call>, Vec<rustlines::Call>) {
    let (mut ours, mut theirs) = (Vec::new(), Vec::new());
    for line in text.split(|&byte| byte == b'\n') {
        if ours.len() == most {
            break;
        }
        let (call, other) = match (call_of(line), rustlines::read_call(line)) {
            (Some(call), Some(other)) => (call, other),
            _ => continue,
        };
        if call.fold().is_ok() && matches!(rustlines::fold(&other), Some(Ok(_))) {
            ours.push(call);
            theirs.push(other);
        }
    }
    (ours, theirs)
}

// ---- a material of a hundred calls: one call for all, on words and on records, and a hundred single ones

fn materials(text: &[u8]) {
    const CALLS: usize = 100;
    const ROUNDS: usize = TURN / CALLS;
    let (ours, theirs) = answered(text, CALLS);
    let count = ROUNDS * ours.len();
    let words: Vec<u64> = ours.iter().flat_map(|call| call.words()).copied().collect();
    assert_eq!(words.len(), ours.len() * CALL_WORDS);
    let mut out = vec![0; ours.len() * (ANSWER_WORDS + 1)];
    let mut results = vec![Err(Refusal::NoRoom); ours.len()];
    let whole = || {
        timed(|| {
            for _ in 0..ROUNDS {
                black_box(fold_all_words_by(Reading::Crate, Engine::Arithmetic, black_box(&words), &mut out))
                    .expect("room for all");
            }
        })
    };
    let mut their_turn = || {
        timed(|| {
            for call in (0..ROUNDS).flat_map(|_| &theirs) {
                drop(black_box(black_box(call).fold()));
            }
        })
    };
    report("material, words", count, in_turns(whole, &mut their_turn));
    report("material, single words", count, folded(fold_words, &ours, &theirs, ROUNDS));
    let records = || {
        timed(|| {
            for _ in 0..ROUNDS {
                black_box(fold_all(black_box(&ours), &mut results)).expect("room for all");
            }
        })
    };
    report("material, records", count, in_turns(records, &mut their_turn));
    let single = || {
        timed(|| {
            for call in (0..ROUNDS).flat_map(|_| &ours) {
                black_box(black_box(call).fold()).expect("an answer");
            }
        })
    };
    report("material, single records", count, in_turns(single, &mut their_turn));
}

/// The same calls by both sides, so many times over.
fn folded(
    fold: impl Fn(&[u64], &mut [u64]) -> Result<(), Refusal>,
    ours: &[chanrelout::Call],
    theirs: &[rustlines::Call],
    rounds: usize,
) -> (Duration, Duration) {
    let mut out = [0; ANSWER_WORDS];
    in_turns(
        || {
            timed(|| {
                for call in (0..rounds).flat_map(|_| ours) {
                    black_box(fold(black_box(call.words()), &mut out)).expect("an answer");
                }
            })
        },
        || {
            timed(|| {
                for call in (0..rounds).flat_map(|_| theirs) {
                    drop(black_box(black_box(call).fold()));
                }
            })
        },
    )
}

/// The call of a line that is spelled rightly.
fn call_of(line: &[u8]) -> Option<chanrelout::Call> {
    let mut fields = std::str::from_utf8(line).ok()?.split('\t');
    let builtin = Builtin::from_name(fields.next()?)?;
    if builtin == Builtin::Bitcast {
        let target = fields.next()?.parse().ok()?;
        let value = fields.next()?.parse().ok()?;
        return Some(chanrelout::Call::bitcast(target, value));
    }
    let arguments = fields.map(|field| field.parse().ok()).collect::<Option<Vec<_>>>()?;
    Some(chanrelout::Call::new(builtin, &arguments))
}

// ---- lines, by the two programs

fn programs(text: &[u8], foldlines: &str, rustlines: &str, emulator: &[String]) {
    let count = text.iter().filter(|&&byte| byte == b'\n').count();
    let times = in_turns(|| child::time(emulator, foldlines, text), || child::time(emulator, rustlines, text));
    report("lines", count, times);
}

// ---- nested calls, and in the other column the same calls on lines of their own, both by foldlines

/// An argument: its text on a nested line, the lines of the calls in it, inner before outer, and its value.
struct Argument {
    nested: String,
    lines: String,
    value: String,
}

fn argument(value: String) -> Argument {
    Argument { nested: value.clone(), lines: String::new(), value }
}

fn call(name: &str, arguments: &[Argument]) -> Argument {
    let parted_by = |mark: &str, part: fn(&Argument) -> &str| {
        arguments.iter().map(part).collect::<Vec<_>>().join(mark)
    };
    let line = format!("{name}\t{}", parted_by("\t", |argument| &argument.value));
    Argument {
        nested: format!("{name}({})", parted_by(";", |argument| &argument.nested)),
        lines: format!("{}{line}\n", parted_by("", |argument| &argument.lines)),
        value: fold_line(line.as_bytes()).expect("an answer"),
    }
}

fn nested(foldlines: &str, emulator: &[String]) {
    const LINES: usize = 1 << 16;
    let mut random = random_bits();
    for (kind, lanes) in [("f32", 1), ("vec4<f32>", 4)] {
        // from 2^-8 to 2^24
        let mut value = || {
            let mut single = || {
                let bits = random();
                format!("{:08X}", bits & 0x807F_FFFF | (119 + bits % 32) << 23)
            };
            argument(format!("{kind}:{}", (0..lanes).map(|_| single()).collect::<Vec<_>>().join(",")))
        };
        for (what, calls) in [("one call", 1), ("two calls", 2), ("four calls", 4), ("eight deep", 8)] {
            let lines: Vec<Argument> = (0..LINES)
                .map(|_| match calls {
                    1 => call("clamp", &[value(), value(), value()]),
                    2 => call("clamp", &[call("min", &[value(), value()]), value(), value()]),
                    4 => call("min", &[call("max", &[call("abs", &[value()]), value()]), call("floor", &[value()])]),
                    _ => (0..calls).fold(value(), |inner, _| call("abs", &[inner])),
                })
                .collect();
            let nested: String = lines.iter().map(|line| format!("{}\n", line.nested)).collect();
            let own: String = lines.iter().map(|line| line.lines.as_str()).collect();
            let times = in_turns(
                || child::time(emulator, foldlines, nested.as_bytes()),
                || child::time(emulator, foldlines, own.as_bytes()),
            );
            report(&format!("nested {kind}, {what}"), calls * LINES, times);
        }
    }
}

// ---- abs, and beside it floor, ceil, trunc, round and fract, on numbers that have digits on both sides of the point

fn roundings(foldlines: &str, rustlines: &str, emulator: &[String]) {
    const LINES: usize = 1 << 17;
    let mut random = random_bits();
    // from 2^-8 to 2^24
    let mut single = || {
        let bits = random();
        bits & 0x807F_FFFF | (119 + bits % 32) << 23
    };
    let values: Vec<String> = (0..LINES)
        .map(|_| format!("vec4<f32>:{:08X},{:08X},{:08X},{:08X}", single(), single(), single(), single()))
        .collect();
    for name in ["abs", "floor", "ceil", "trunc", "round", "fract"] {
        let lines: Vec<String> = values.iter().map(|value| format!("{name}\t{value}\n")).collect();
        let few = lines.iter().take(FEW).map(|line| line.trim_end().as_bytes());
        let (ours, theirs): (Vec<_>, Vec<_>) =
            few.map(|line| (call_of(line).expect("a call"), rustlines::read_call(line).expect("a call"))).unzip();
        let rounds = TURN / FEW;
        report(&format!("{name}, record calls"), rounds * FEW, folded(fold_words, &ours, &theirs, rounds));
        let text = lines.concat();
        let times = in_turns(
            || child::time(emulator, foldlines, text.as_bytes()),
            || child::time(emulator, rustlines, text.as_bytes()),
        );
        report(&format!("{name}, lines"), LINES, times);
    }
}

// ---- the two engines of the 8-bit norm formats, on lanes within and beside the clamping range and on any words

fn engines() {
    let mut random = random_bits();
    let words: Vec<String> = (0..FEW).map(|_| format!("u32:{:08X}", random())).collect();
    // from 2^-10 to 2, of either sign
    let mut single = || {
        let bits = random();
        bits & 0x807F_FFFF | (117 + bits % 11) << 23
    };
    let vectors: Vec<String> = (0..FEW)
        .map(|_| format!("vec4<f32>:{:08X},{:08X},{:08X},{:08X}", single(), single(), single(), single()))
        .collect();
    for (name, values) in [
        ("pack4x8snorm", &vectors),
        ("pack4x8unorm", &vectors),
        ("unpack4x8snorm", &words),
        ("unpack4x8unorm", &words),
    ] {
        let lines: Vec<String> = values.iter().map(|value| format!("{name}\t{value}")).collect();
        let (ours, theirs): (Vec<_>, Vec<_>) = lines
            .iter()
            .map(|line| (call_of(line.as_bytes()).expect("a call"), rustlines::read_call(line.as_bytes()).expect("a call")))
            .unzip();
        let rounds = TURN / FEW;
        for (how, engine) in [("arithmetic", Engine::Arithmetic), ("tables", Engine::Tables)] {
            let fold = |call: &[u64], out: &mut [u64]| fold_words_by(Reading::Crate, engine, call, out);
            report(&format!("{name}, {how}"), rounds * FEW, folded(fold, &ours, &theirs, rounds));
        }
    }
}

// ---- half conversions: both sides' functions themselves, each called through a pointer

extern "C" {
    fn chanrelout_f32_to_f16(bits: u32) -> u16;
    fn chanrelout_f32_to_f16_told(bits: u32) -> u32;
    fn chanrelout_f16_to_f32(bits: u16) -> u32;
}

extern "C" fn crate_f32_to_f16(bits: u32) -> u16 {
    halfcrate::f16::from_f32(f32::from_bits(bits)).to_bits()
}

extern "C" fn crate_f16_to_f32(bits: u16) -> u32 {
    halfcrate::f16::from_bits(bits).to_f32().to_bits()
}

fn halves() {
    const COUNT: usize = 1 << 22;
    let mut random = random_bits();
    let any: Vec<u32> = (0..COUNT).map(|_| random()).collect();
    // from 2^-25 to 2^17, where a conversion has to round
    let near: Vec<u32> = any.iter().map(|bits| bits & 0x807F_FFFF | (102 + bits % 43) << 23).collect();
    let short: Vec<u16> = any.iter().map(|&bits| bits as u16).collect();
    let times = converted(&any, chanrelout_f32_to_f16, crate_f32_to_f16);
    report("f32 to f16, any", COUNT, times);
    let times = converted(&near, chanrelout_f32_to_f16, crate_f32_to_f16);
    report("f32 to f16, in range", COUNT, times);
    let times = converted(&near, chanrelout_f32_to_f16_told, crate_f32_to_f16_told);
    report("f32 to f16, told", COUNT, times);
    let times = converted(&short, chanrelout_f16_to_f32, crate_f16_to_f32);
    report("f16 to f32", COUNT, times);
}

/// The half crate's conversion, and what it lost by its way back: the loss above the half's 16 bits.
extern "C" fn crate_f32_to_f16_told(bits: u32) -> u32 {
    let half = crate_f32_to_f16(bits);
    let loss = if bits & 0x7FFF_FFFF >= 0x7F80_0000 || crate_f16_to_f32(half) == bits {
        0
    } else if half & 0x7FFF == 0x7C00 {
        2
    } else {
        1
    };
    loss << 16 | u32::from(half)
}

type Conversion<A, B> = unsafe extern "C" fn(A) -> B;

fn converted<A: Copy, B>(all: &[A], ours: Conversion<A, B>, theirs: Conversion<A, B>) -> (Duration, Duration) {
    in_turns(|| over(all, black_box(ours)), || over(all, black_box(theirs)))
}

fn over<A: Copy, B>(all: &[A], convert: Conversion<A, B>) -> Duration {
    timed(|| {
        for &x in all {
            // SAFETY: numbers in, a number out.
            black_box(unsafe { convert(black_box(x)) });
        }
    })
}

fn random_bits() -> impl FnMut() -> u32 {
    let mut state = 0x9E37_79B9_7F4A_7C15u64;
    move || {
        state ^= state << 13;
        state ^= state >> 7;
        state ^= state << 17;
        (state >> 16) as u32
    }
}

// ---- the order of two values of f32 lanes: the library's comparison of words against `f32::total_cmp`, lane by lane

extern "C" {
    fn chanrelout_compare(a: *const u64, a_len: usize, b: *const u64, b_len: usize) -> u8;
}

/// A value's words, and its lanes as the Rust has them.
type Compared = ([u64; 17], Vec<f32>);

fn orders() {
    // the numbers of f32, vec4<f32> and mat4x4<f32>
    for (what, number, lanes) in [("compare f32", 4, 1), ("compare vec4<f32>", 19, 4), ("compare mat4x4<f32>", 29, 16)]
    {
        let mut random = random_bits();
        // only the last lane tells two values apart, so that every lane is looked at
        let values: Vec<Compared> = (0..FEW)
            .map(|_| {
                let mut words = [0; 17];
                words[0] = number;
                words[1..=lanes].fill(0x3F80_0000);
                words[lanes] = random().into();
                (words, words[1..=lanes].iter().map(|&lane| f32::from_bits(lane as u32)).collect())
            })
            .collect();
        let rounds = TURN / FEW;
        let times = in_turns(|| compared(&values, rounds, ours), || compared(&values, rounds, theirs));
        report(what, rounds * (FEW - 1), times);
    }
}

fn ours((a, _): &Compared, (b, _): &Compared) -> bool {
    // SAFETY: each pointer and length are those of a slice.
    unsafe { chanrelout_compare(a.as_ptr(), a.len(), b.as_ptr(), b.len()) == 0 }
}

fn theirs((_, a): &Compared, (_, b): &Compared) -> bool {
    let lanes = a.iter().zip(b).map(|(a, b)| a.total_cmp(b));
    lanes.fold(Ordering::Equal, Ordering::then) == Ordering::Less
}

fn compared(values: &[Compared], rounds: usize, before: impl Fn(&Compared, &Compared) -> bool) -> Duration {
    timed(|| {
        for two in (0..rounds).flat_map(|_| values.windows(2)) {
            black_box(before(black_box(&two[0]), black_box(&two[1])));
        }
    })
}

// ---- a listing in order, by foldsort and by the system's sort, which sorts by bytes

fn listings(text: &[u8], foldsort: &str, emulator: &[String]) {
    const TIMES: usize = 50;
    let mut listing = Vec::new();
    let mut count = 0;
    for line in text.split(|&byte| byte == b'\n') {
        match fold_line(line) {
            Ok(answer) if listing.len() + answer.len() < LONGEST_LISTING && count < MOST_LINES => {
                listing.extend(answer.bytes().chain([b'\n']));
                count += 1;
            }
            _ => continue,
        }
    }
    let by_bytes = ["env", "LC_ALL=C"].map(String::from);
    let times = in_turns(
        || (0..TIMES).map(|_| child::time(emulator, foldsort, &listing)).sum(),
        || (0..TIMES).map(|_| child::time(&by_bytes, "sort", &listing)).sum(),
    );
    report(&format!("sort {count} lines"), TIMES * count, times);
}
