//! Compares the Rust's answers with ours, line by line.
//!
//!     judge LINES RUST OURS COUNTS
//!
//! LINES holds the calls, RUST what rustlines answered, OURS what our program answered. A line on which the two are
//! not byte for byte the same must be explained by a rule below, or by two where its lanes differ in two ways. The
//! number of all lines and of those that each rule explained are added to COUNTS, as `rule, tab, number, tab, shortest
//! line`. An unexplained difference is printed with both answers and makes the exit status 1.

mod value;

use std::collections::BTreeMap;
use std::fs::File;
use std::io::{self, BufRead, BufReader, Write};
use value::{read_values, Value};

/// Why two answers may differ. The names are printed.
#[derive(Clone, Copy, PartialEq, Eq, PartialOrd, Ord)]
enum Rule {
    Equal,
    BothRefuse,
    /// 01: "Where it panics (`todo!`, `unreachable!`), the port gives 4."
    PanicIsFour,
    /// 01, "Outside": f16 in min, max, clamp, saturate, cross, dot and ldexp; integers in cross.
    Outside,
    /// 01: "In comparison with the Rust all NaNs are equal". Not used where bits are only moved: there they must agree.
    NanBits,
    /// 01: ".. in half lanes of packed words too."
    PackedNan,
    /// 01: "Rust may return either of two opposite zeros; the port returns the first."
    OppositeZeros,
    /// On Arm a maximum or minimum with a signalling NaN is NaN.
    SignallingOnArm,
    /// 01: the type of lit_step's bare 1.0 is left to inference; "compare the value".
    StepType,
}

use Rule::*;

impl Rule {
    fn name(self) -> &'static str {
        match self {
            Equal => "equal to the byte",
            BothRefuse => "both refuse",
            PanicIsFour => "the Rust panics, refused 4 here",
            Outside => "outside 01, the Rust answers, refused 4 here",
            NanBits => "NaN, other bits",
            PackedNan => "NaN in a packed half, other bits",
            OppositeZeros => "min, max, clamp, saturate of opposite zeros",
            SignallingOnArm => "min, max, clamp, saturate of a signalling NaN on Arm",
            StepType => "step, an abstract float in the Rust",
        }
    }
}

fn main() -> io::Result<()> {
    let names: Vec<String> = std::env::args().skip(1).collect();
    if names.len() != 4 {
        eprintln!("usage: judge LINES RUST OURS COUNTS");
        std::process::exit(2);
    }
    let mut texts = Vec::new();
    for name in &names[..3] {
        texts.push(BufReader::with_capacity(1 << 16, File::open(name)?));
    }
    let mut counts: BTreeMap<Rule, (u64, Vec<u8>)> = BTreeMap::new();
    let (mut lines, mut unexplained) = (0u64, 0u64);
    let mut read = [Vec::new(), Vec::new(), Vec::new()];
    let errors = io::stderr();
    loop {
        let mut left = 0;
        for (text, line) in texts.iter_mut().zip(&mut read) {
            line.clear();
            left += usize::from(text.read_until(b'\n', line)? > 0);
            if line.last() == Some(&b'\n') {
                line.pop();
            }
        }
        match left {
            0 => break,
            3 => (),
            _ => {
                eprintln!("judge: there is not one answer for each line");
                std::process::exit(1);
            }
        }
        lines += 1;
        let [line, rust, ours] = &read;
        match explain(line, rust, ours) {
            Some(rules) => {
                for rule in rules {
                    let (count, shortest) = counts.entry(rule).or_insert_with(|| (0, line.clone()));
                    *count += 1;
                    if line.len() < shortest.len() {
                        shortest.clone_from(line);
                    }
                }
            }
            None => {
                unexplained += 1;
                if unexplained <= 20 {
                    let mut out = errors.lock();
                    for (what, text) in [("line", line), ("Rust", rust), ("ours", ours)] {
                        out.write_all(what.as_bytes())?;
                        out.write_all(b"  ")?;
                        out.write_all(text)?;
                        out.write_all(b"\n")?;
                    }
                }
            }
        }
    }
    let mut out = File::options().create(true).append(true).open(&names[3])?;
    writeln!(out, "lines\t{}\t", lines)?;
    for (rule, (count, shortest)) in counts {
        write!(out, "{}\t{}\t", rule.name(), count)?;
        out.write_all(&shortest)?;
        out.write_all(b"\n")?;
    }
    if unexplained > 0 {
        eprintln!("judge: {} lines differ without a rule that allows it", unexplained);
        std::process::exit(1);
    }
    Ok(())
}

/// The rules that a line needs, each once; none where no rule allows the difference.
fn explain(line: &[u8], rust: &[u8], ours: &[u8]) -> Option<Vec<Rule>> {
    if rust == ours {
        return Some(vec![Equal]);
    }
    let refusal = ours.strip_prefix(b"refused\t");
    match (rust, refusal) {
        (b"refused", Some(number)) => is_refusal(number).then(|| vec![BothRefuse]),
        (b"panic", Some(b"4")) => Some(vec![PanicIsFour]),
        (b"refused" | b"panic", _) => None,
        (_, Some(b"4")) => (is_outside(line)? && read_values(rust).is_some()).then(|| vec![Outside]),
        (_, Some(_)) => None,
        _ => answers(line, rust, ours),
    }
}

/// A number, and perhaps a place.
fn is_refusal(fields: &[u8]) -> bool {
    fields.split(|&byte| byte == b'\t').all(|field| !field.is_empty() && field.iter().all(u8::is_ascii_digit))
}

fn split_call(line: &[u8]) -> Option<(&[u8], &[u8])> {
    let tab = line.iter().position(|&byte| byte == b'\t')?;
    Some((&line[..tab], &line[tab + 1..]))
}

fn is_outside(line: &[u8]) -> Option<bool> {
    let (name, arguments) = split_call(line)?;
    let arguments = read_values(arguments)?;
    let has = |scalar: &[u8]| arguments.iter().any(|value| value.scalar == scalar);
    Some(match name {
        b"min" | b"max" | b"clamp" | b"saturate" | b"dot" | b"ldexp" => has(b"f16"),
        b"cross" => has(b"f16") || has(b"i32") || has(b"u32"),
        _ => false,
    })
}

/// Two answers that differ in some byte.
fn answers(line: &[u8], rust: &[u8], ours: &[u8]) -> Option<Vec<Rule>> {
    let (name, arguments) = split_call(line)?;
    let (rust, ours) = (read_values(rust)?, read_values(ours)?);
    if rust.len() != ours.len() {
        return None;
    }
    let mut rules = Vec::new();
    for (rust, ours) in rust.iter().zip(&ours) {
        if rust.lanes.len() != ours.lanes.len() {
            return None;
        }
        if name == b"step" && is_step_type(rust, ours) {
            for (&r, &o) in rust.lanes.iter().zip(&ours.lanes) {
                if step_number(rust.scalar, r)? != step_number(ours.scalar, o)? {
                    return None;
                }
            }
            rules.push(StepType);
        } else if rust.ty != ours.ty {
            return None;
        } else {
            for (lane, (&r, &o)) in rust.lanes.iter().zip(&ours.lanes).enumerate() {
                if r != o {
                    rules.push(lane_rule(name, arguments, ours.scalar, lane, r, o)?);
                }
            }
        }
    }
    rules.sort();
    rules.dedup();
    Some(rules)
}

/// Whether the types differ in the scalar alone, an abstract float in the Rust.
fn is_step_type(rust: &Value, ours: &Value) -> bool {
    rust.scalar == b"afloat" && (ours.scalar == b"f32" || ours.scalar == b"f16") && rust.shape() == ours.shape()
}

/// Which of step's two numbers a lane is.
fn step_number(scalar: &[u8], lane: u64) -> Option<bool> {
    let one = match scalar {
        b"afloat" => 1.0f64.to_bits(),
        b"f32" => u64::from(1.0f32.to_bits()),
        _ => 0x3C00,
    };
    match lane {
        0 => Some(false),
        lane => (lane == one).then(|| true),
    }
}

fn lane_rule(name: &[u8], arguments: &[u8], scalar: &[u8], lane: usize, rust: u64, ours: u64) -> Option<Rule> {
    let picks = matches!(name, b"min" | b"max" | b"clamp" | b"saturate") && scalar == b"f32";
    let met: Vec<u64> = match picks {
        true => read_values(arguments)?.iter().map(|value| value.lanes[lane]).collect(),
        false => Vec::new(),
    };
    let moves = matches!(name, b"select" | b"transpose" | b"bitcast" | b"abs");
    if !moves && is_nan(scalar, rust) && is_nan(scalar, ours) {
        return Some(NanBits);
    }
    if name == b"pack2x16float" {
        let same = |shift: u32| {
            let (r, o) = (rust >> shift & 0xFFFF, ours >> shift & 0xFFFF);
            r == o || is_nan(b"f16", r) && is_nan(b"f16", o)
        };
        return (same(0) && same(16)).then(|| PackedNan);
    }
    if picks && rust ^ ours == 0x8000_0000 && ours & 0x7FFF_FFFF == 0 {
        let has = |zero: u64| met.contains(&zero) || name == b"saturate" && zero == 0;
        return (has(0) && has(0x8000_0000)).then(|| OppositeZeros);
    }
    if picks && cfg!(target_arch = "aarch64") && met.iter().any(|&lane| is_signalling(lane)) {
        // The processor's NaN, or what the second of clamp's two steps then picks.
        let picked = is_nan(scalar, rust) || met.contains(&rust) || rust == u64::from(1.0f32.to_bits());
        return picked.then(|| SignallingOnArm);
    }
    None
}

fn is_nan(scalar: &[u8], lane: u64) -> bool {
    match scalar {
        b"f32" => lane & 0x7FFF_FFFF > 0x7F80_0000,
        b"f16" => lane & 0x7FFF > 0x7C00,
        _ => false,
    }
}

/// Of f32.
fn is_signalling(lane: u64) -> bool {
    is_nan(b"f32", lane) && lane & 0x0040_0000 == 0
}

#[cfg(test)]
mod tests {
    use super::*;

    fn rules(line: &str, rust: &str, ours: &str) -> Option<Vec<&'static str>> {
        let rules = explain(line.as_bytes(), rust.as_bytes(), ours.as_bytes())?;
        Some(rules.into_iter().map(Rule::name).collect())
    }

    #[test]
    fn allowed() {
        for (line, rust, ours, rule) in [
            ("any\tbool:1", "bool:1", "bool:1", Equal),
            ("any\ti32:1", "refused", "refused\t3", BothRefuse),
            ("any\ti32:1", "refused", "refused\t11\t9", BothRefuse),
            ("frexp\tbool:0", "panic", "refused\t4", PanicIsFour),
            ("saturate\tf16:4000", "f16:3C00", "refused\t4", Outside),
            (
                "cross\tvec3<i32>:00000000,00000000,00000000\tvec3<i32>:00000000,00000000,00000000",
                "vec3<i32>:00000000,00000000,00000000",
                "refused\t4",
                Outside,
            ),
            ("sign\tf16:7C01", "f16:7C01", "f16:7E00", NanBits),
            ("frexp\tf32:7F800001", "f32:7FC00001\ti32:00000000", "f32:7FC00000\ti32:00000000", NanBits),
            ("pack2x16float\tvec2<f32>:FFC00000,3F800000", "u32:3C00FE00", "u32:3C007E00", PackedNan),
            ("max\tf32:80000000\tf32:00000000", "f32:00000000", "f32:80000000", OppositeZeros),
            ("saturate\tf32:80000000", "f32:00000000", "f32:80000000", OppositeZeros),
            ("step\tf16:0000\tf16:3C00", "afloat:3FF0000000000000", "f16:3C00", StepType),
        ] {
            assert_eq!(rules(line, rust, ours), Some(vec![rule.name()]), "{}", line);
        }
    }

    #[test]
    fn not_allowed() {
        for (line, rust, ours) in [
            // An answer where the other side has none, or another answer.
            ("any\tbool:1", "bool:1", "bool:0"),
            ("any\tbool:1", "bool:1", "refused\t4"),
            ("any\tbool:1", "refused", "bool:1"),
            ("frexp\tbool:0", "panic", "bool:0"),
            ("any\tbool:1", "bool:1", ""),
            // Another number than 4 for a panic or for what is outside.
            ("frexp\tbool:0", "panic", "refused\t3"),
            ("saturate\tf16:4000", "f16:3C00", "refused\t5"),
            ("saturate\tf32:40000000", "f32:3F800000", "refused\t4"),
            ("dot\tvec2<i32>:00000000,00000000\tvec2<i32>:00000000,00000000", "i32:00000000", "refused\t4"),
            // NaN bits where bits are only moved; a NaN against a number.
            ("abs\tf32:FF800001", "f32:7F800001", "f32:7FC00000"),
            ("sign\tf32:7F800001", "f32:7F800001", "f32:3F800000"),
            ("pack2x16float\tvec2<f32>:FFC00000,3F800000", "u32:3C00FE00", "u32:3C017E00"),
            ("pack2x16snorm\tvec2<f32>:FFC00000,3F800000", "u32:3C00FE00", "u32:3C007E00"),
            // Zeros of which only one is there, or in another builtin.
            ("max\tf32:00000000\tf32:00000000", "f32:00000000", "f32:80000000"),
            ("saturate\tf32:00000000", "f32:00000000", "f32:80000000"),
            ("ldexp\tf32:80000000\ti32:00000000", "f32:00000000", "f32:80000000"),
            // step: the value, the shape, the type.
            ("step\tf16:0000\tf16:3C00", "afloat:3FF0000000000000", "f16:0000"),
            ("step\tf16:0000\tf16:3C00", "afloat:3FF0000000000000", "i32:3F800000"),
            ("step\tf16:0000\tf16:3C00", "f32:3F800000", "f16:3C00"),
            ("step\tf16:0000\tf16:3C00", "vec2<afloat>:3FF0000000000000,0000000000000000", "f16:3C00"),
            // Types and counts.
            ("select\tf32:00000000\tf32:00000000\tbool:0", "f32:00000000", "u32:00000000"),
            ("frexp\tf32:00000000", "f32:00000000\ti32:00000000", "f32:00000000"),
        ] {
            assert_eq!(rules(line, rust, ours), None, "{}", line);
        }
    }

    #[test]
    fn signalling_nan_on_arm_only() {
        let allowed = rules("max\tf32:7F800001\tf32:00000000", "f32:7FC00001", "f32:00000000");
        assert_eq!(allowed.is_some(), cfg!(target_arch = "aarch64"));
        assert_eq!(rules("max\tf32:7FC00000\tf32:00000000", "f32:7FC00001", "f32:00000000"), None);
    }
}
