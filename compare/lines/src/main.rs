//! Makes call lines, the same ones for the same seed on every machine.
//!
//!     lines fixed SEED          the fixed part: what is listed in `fixed`; the seed fills the lanes left open
//!     lines random SEED COUNT   COUNT lines of random lanes, wrong types and damaged copies among them
//!
//! What is made here judges nothing: where a threshold is searched, only inputs on both its sides are wanted.

mod edges;
mod types;

use edges::{edges, EXPONENTS};
use std::io::{self, BufWriter, Write};
use types::{all_types, builtins, Builtin, Scalar, Type};

/// splitmix64.
struct Random(u64);

impl Random {
    fn next(&mut self) -> u64 {
        self.0 = self.0.wrapping_add(0x9E37_79B9_7F4A_7C15);
        let z = (self.0 ^ (self.0 >> 30)).wrapping_mul(0xBF58_476D_1CE4_E5B9);
        let z = (z ^ (z >> 27)).wrapping_mul(0x94D0_49BB_1331_11EB);
        z ^ (z >> 31)
    }
    fn below(&mut self, n: usize) -> usize {
        ((u128::from(self.next()) * n as u128) >> 64) as usize
    }
    fn percent(&mut self, n: usize) -> bool {
        self.below(100) < n
    }
    fn pick<'a, T>(&mut self, from: &'a [T]) -> &'a T {
        &from[self.below(from.len())]
    }
    fn bits(&mut self) -> u32 {
        (self.next() >> 32) as u32
    }
}

struct Lines<W: Write> {
    out: W,
    random: Random,
    types: &'static [Type],
    builtins: &'static [Builtin],
    /// For each builtin every way of types that it takes.
    taken: Vec<Vec<Types>>,
}

/// bitcast's target, and the arguments' types.
type Types = (Option<&'static Type>, Vec<&'static Type>);

/// A value's spelling, tab first.
fn spell(line: &mut Vec<u8>, ty: &Type, lanes: &[u32]) {
    line.push(b'\t');
    line.extend_from_slice(ty.spelling.as_bytes());
    for (i, lane) in lanes.iter().enumerate() {
        line.push(if i == 0 { b':' } else { b',' });
        for digit in (0..ty.scalar.digits()).rev() {
            line.push(b"0123456789ABCDEF"[(lane >> (4 * digit) & 15) as usize]);
        }
    }
}

impl<W: Write> Lines<W> {
    fn line(&mut self, line: &[u8]) -> io::Result<()> {
        self.out.write_all(line)?;
        self.out.write_all(b"\n")
    }

    /// A call of one argument, spelled out.
    fn unary(&mut self, name: &str, ty: &Type, lanes: &[u32]) -> io::Result<()> {
        self.call(name, None, &[(ty, lanes.to_vec())])
    }

    fn call(&mut self, name: &str, target: Option<&Type>, arguments: &[(&Type, Vec<u32>)]) -> io::Result<()> {
        let line = called(name, target, arguments);
        self.line(&line)
    }

    /// A lane of its own accord: an edge, a number of middling size, one near a norm format's grid, or any bits.
    fn lane(&mut self, scalar: Scalar) -> u32 {
        let random = &mut self.random;
        let kind = random.below(100);
        match scalar {
            Scalar::Bool => random.bits() & 1,
            _ if kind < 30 => *random.pick(edges(scalar)),
            Scalar::F16 => random.bits() & 0xFFFF,
            Scalar::F32 if kind < 55 => {
                let sign = random.bits() & 0x8000_0000;
                let exponent = 107 + random.below(40) as u32;
                sign | exponent << 23 | random.bits() & 0x007F_FFFF
            }
            Scalar::F32 if kind < 65 => {
                let scale = *random.pick(&[127.0f32, 255.0, 32767.0, 65535.0]);
                let code = random.below(scale as usize + 1) as f32;
                let half = *random.pick(&[0.0f32, 0.5]);
                let near = ((code + half) / scale).to_bits().wrapping_add(random.below(5) as u32).wrapping_sub(2);
                near ^ (random.bits() & 0x8000_0000)
            }
            Scalar::I32 | Scalar::U32 if kind < 50 => (random.below(600) as u32).wrapping_sub(300),
            _ => random.bits(),
        }
    }

    fn lanes(&mut self, ty: &Type) -> Vec<u32> {
        (0..ty.lanes).map(|_| self.lane(ty.scalar)).collect()
    }

    /// Lanes for each type; now and then a lane repeats the one before it in the same place, or nearly so.
    fn arguments<'a>(&mut self, types: &[&'a Type]) -> Vec<(&'a Type, Vec<u32>)> {
        let mut arguments: Vec<(&Type, Vec<u32>)> = Vec::new();
        for ty in types {
            let mut lanes = self.lanes(ty);
            if let Some((before, repeated)) = arguments.last() {
                if before.scalar == ty.scalar && ty.scalar != Scalar::Bool {
                    for (lane, old) in lanes.iter_mut().zip(repeated) {
                        if self.random.percent(20) {
                            let sign = if ty.scalar == Scalar::F16 { 0x8000 } else { 0x8000_0000 };
                            *lane = old ^ *self.random.pick(&[0, 0, 1, sign]);
                        }
                    }
                }
            }
            arguments.push((ty, lanes));
        }
        arguments
    }
}

/// The type of a spelling.
fn named_in(types: &'static [Type]) -> impl Fn(&str) -> &'static Type {
    move |spelling| types.iter().find(|ty| ty.spelling == spelling).expect("a type of document 01")
}

fn called(name: &str, target: Option<&Type>, arguments: &[(&Type, Vec<u32>)]) -> Vec<u8> {
    let mut line = name.as_bytes().to_vec();
    if let Some(target) = target {
        line.push(b'\t');
        line.extend_from_slice(target.spelling.as_bytes());
    }
    for (ty, lanes) in arguments {
        spell(&mut line, ty, lanes);
    }
    line
}

fn main() -> io::Result<()> {
    let words: Vec<String> = std::env::args().skip(1).collect();
    let words: Vec<&str> = words.iter().map(String::as_str).collect();
    let number = |word: &str| word.parse::<u64>().ok();
    let (seed, count) = match words[..] {
        ["fixed", seed] => (number(seed), None),
        ["random", seed, count] => (number(seed), number(count)),
        _ => (None, None),
    };
    let seed = match seed {
        Some(seed) if words[0] == "fixed" || count.is_some() => seed,
        _ => {
            eprintln!("usage: lines fixed SEED | lines random SEED COUNT");
            std::process::exit(2);
        }
    };
    let types: &[Type] = Box::leak(all_types().into_boxed_slice());
    let builtins: &[Builtin] = Box::leak(builtins().into_boxed_slice());
    let mut lines = Lines {
        out: BufWriter::with_capacity(1 << 16, io::stdout().lock()),
        random: Random(seed),
        types,
        builtins,
        taken: builtins.iter().map(|builtin| builtin.taken(types)).collect(),
    };
    match count {
        None => lines.fixed()?,
        Some(count) => (0..count).try_for_each(|_| lines.random_line())?,
    }
    lines.out.flush()
}

/// The fixed part.
impl<W: Write> Lines<W> {
    fn fixed(&mut self) -> io::Result<()> {
        self.counts()?;
        self.tuples()?;
        self.edges_in_every_place()?;
        self.edges_together()?;
        self.every_half()?;
        self.around_whole_numbers()?;
        self.every_code()?;
        self.every_threshold()?;
        self.small_numbers_packed()?;
        self.long_lines()
    }

    /// Every builtin, and none, with every number of arguments up to four.
    fn counts(&mut self) -> io::Result<()> {
        self.line(b"")?;
        for builtin in self.builtins {
            for name in [builtin.name.to_string(), builtin.name.to_uppercase(), format!("{}s", builtin.name)] {
                for count in 0..=4 {
                    for ty in ["f32:3F800000", "vec4<f32>:3F800000,00000000,BF800000,3F000000", "i32", ""] {
                        let line = [&name[..]].into_iter().chain((0..count).map(|_| ty)).collect::<Vec<_>>();
                        self.line(line.join("\t").as_bytes())?;
                    }
                }
            }
        }
        Ok(())
    }

    /// Every builtin over every tuple of types, bitcast with every target.
    fn tuples(&mut self) -> io::Result<()> {
        let types = self.types;
        for builtin in self.builtins {
            for a in types {
                if builtin.arguments == 1 && !builtin.has_target() {
                    let arguments = self.arguments(&[a]);
                    self.call(builtin.name, None, &arguments)?;
                    continue;
                }
                for b in types {
                    if builtin.has_target() {
                        let arguments = self.arguments(&[b]);
                        self.call(builtin.name, Some(a), &arguments)?;
                    } else if builtin.arguments == 2 {
                        let arguments = self.arguments(&[a, b]);
                        self.call(builtin.name, None, &arguments)?;
                    } else {
                        for c in types {
                            let arguments = self.arguments(&[a, b, c]);
                            self.call(builtin.name, None, &arguments)?;
                        }
                    }
                }
            }
        }
        Ok(())
    }

    /// Each edge in each lane of each argument of each call that is taken, the other lanes random.
    fn edges_in_every_place(&mut self) -> io::Result<()> {
        for builtin in self.builtins {
            for (target, arguments) in builtin.taken(self.types) {
                for place in 0..arguments.len() {
                    for lane in 0..arguments[place].lanes {
                        for &edge in edges(arguments[place].scalar) {
                            let mut values = self.arguments(&arguments);
                            values[place].1[lane] = edge;
                            self.call(builtin.name, target, &values)?;
                        }
                    }
                }
            }
        }
        Ok(())
    }

    /// Scalars: every pair of edges in min, max, step and ldexp, every triple in clamp. Vectors of two: every pair of
    /// edges in dot beside every pair of a short list.
    fn edges_together(&mut self) -> io::Result<()> {
        let named = named_in(self.types);
        for spelling in ["i32", "u32", "f32", "f16"] {
            let ty = named(spelling);
            for &a in edges(ty.scalar) {
                for &b in edges(ty.scalar) {
                    for name in ["min", "max", "step"] {
                        self.call(name, None, &[(ty, vec![a]), (ty, vec![b])])?;
                    }
                }
            }
        }
        for spelling in ["i32", "u32", "f32"] {
            let ty = named(spelling);
            for &a in edges(ty.scalar) {
                for &b in edges(ty.scalar) {
                    for &c in edges(ty.scalar) {
                        self.call("clamp", None, &[(ty, vec![a]), (ty, vec![b]), (ty, vec![c])])?;
                    }
                }
            }
        }
        for &x in edges(Scalar::F32) {
            for &n in EXPONENTS {
                self.call("ldexp", None, &[(named("f32"), vec![x]), (named("i32"), vec![n as u32])])?;
            }
        }
        for spelling in ["vec2<i32>", "vec2<u32>", "vec2<f32>"] {
            let ty = named(spelling);
            for &a in edges(ty.scalar) {
                for &b in edges(ty.scalar) {
                    for _ in 0..4 {
                        let (c, d) = (*self.random.pick(edges(ty.scalar)), *self.random.pick(edges(ty.scalar)));
                        self.call("dot", None, &[(ty, vec![a, c]), (ty, vec![b, d])])?;
                    }
                }
            }
        }
        Ok(())
    }

    /// All 65,536 halves through every builtin of one argument that takes f16, and both ways between f32 and f16,
    /// with both sides of every place where rounding turns.
    fn every_half(&mut self) -> io::Result<()> {
        let named = named_in(self.types);
        for name in ["abs", "sign", "frexp", "floor", "ceil", "trunc", "round", "fract"] {
            for half in 0..=0xFFFF {
                self.unary(name, named("f16"), &[half])?;
            }
            for quad in 0..0x4000 {
                self.unary(name, named("vec4<f16>"), &[quad, 0xFFFF - quad, quad + 0x4000, 0xBFFF - quad])?;
            }
        }
        for target in ["vec4<f16>", "vec2<u32>"] {
            for quad in 0..0x4000 {
                let lanes = vec![quad, 0xFFFF - quad, quad + 0x4000, 0xBFFF - quad];
                self.call("bitcast", Some(named(target)), &[(named("vec4<f16>"), lanes)])?;
            }
        }
        for half in (0..0xFFFF).step_by(2) {
            self.unary("unpack2x16float", named("u32"), &[(half + 1) << 16 | half])?;
            self.unary("unpack2x16float", named("u32"), &[half << 16 | (half + 1)])?;
        }
        for half in 0..=0xFFFF {
            let single = wide(half);
            let lanes = if half & 0x7FFF < 0x7C00 {
                // Halfway to the next half, exact in f32; the greatest half's stands where the next would be.
                let turn = middle(half);
                [single, turn, turn - 1, turn + 1]
            } else {
                [single, single | 1, single | 0x1FFF, single ^ 0x0040_0000]
            };
            self.unary("pack2x16float", named("vec2<f32>"), &lanes[..2])?;
            self.unary("pack2x16float", named("vec2<f32>"), &lanes[2..])?;
        }
        Ok(())
    }

    /// The f32 of every exponent where floor, ceil, trunc, round and fract turn, and those beside them: the ends of the
    /// exponent and, where a number has digits on both sides of the point, the first and last whole numbers and halves.
    fn around_whole_numbers(&mut self) -> io::Result<()> {
        const FRACTION: u32 = 0x007F_FFFF;
        let single = named_in(self.types)("f32");
        for exponent in 0..=0xFFu32 {
            let mut fractions = vec![0, 1, 2, 0x3F_FFFF, 0x40_0000, 0x40_0001, FRACTION - 1, FRACTION];
            if (127..150).contains(&exponent) {
                let half = 1 << (149 - exponent);
                for whole in [0, 2 * half, FRACTION & !(4 * half - 1), FRACTION & !(2 * half - 1)] {
                    for near in
                        [whole, whole.wrapping_sub(1), whole + 1, whole + half - 1, whole + half, whole + half + 1]
                    {
                        fractions.push(near & FRACTION);
                    }
                }
            }
            fractions.sort_unstable();
            fractions.dedup();
            for fraction in fractions {
                for sign in [0, 0x8000_0000] {
                    for name in ["floor", "ceil", "trunc", "round", "fract"] {
                        self.unary(name, single, &[sign | exponent << 23 | fraction])?;
                    }
                }
            }
        }
        Ok(())
    }

    /// Every code of every packed format, unpacked.
    fn every_code(&mut self) -> io::Result<()> {
        let word = named_in(self.types)("u32");
        for name in ["unpack4x8snorm", "unpack4x8unorm", "unpack4xI8", "unpack4xU8"] {
            for code in 0..=0xFF {
                let others = self.random.bits();
                for lane in 0..4 {
                    let hole = others & !(0xFF << (8 * lane));
                    self.unary(name, word, &[hole | code << (8 * lane)])?;
                }
            }
        }
        for name in ["unpack2x16snorm", "unpack2x16unorm"] {
            for code in (0..0xFFFF).step_by(2) {
                self.unary(name, word, &[(code + 1) << 16 | code])?;
                self.unary(name, word, &[code << 16 | (code + 1)])?;
            }
        }
        Ok(())
    }

    /// Both sides of every threshold of the norm formats: the least f32 of each code and the one before it, by the
    /// f32 steps, and the f32 nearest the exact formula's threshold.
    fn every_threshold(&mut self) -> io::Result<()> {
        let formats = [
            ("pack4x8unorm", "vec4<f32>", 1, 255),
            ("pack4x8snorm", "vec4<f32>", -126, 127),
            ("pack2x16unorm", "vec2<f32>", 1, 65535),
            ("pack2x16snorm", "vec2<f32>", -32766, 32767),
        ];
        for (name, spelling, first, scale) in formats {
            let ty = named_in(self.types)(spelling);
            for code in first..=scale {
                let above = threshold(scale as f32, code as f32);
                let below = step_down(above);
                let exact = ((f64::from(code) - 0.5) / f64::from(scale)) as f32;
                let lanes = [below, above.to_bits(), exact.to_bits(), (code as f32 / scale as f32).to_bits()];
                for lanes in lanes.chunks(ty.lanes) {
                    self.unary(name, ty, lanes)?;
                }
            }
        }
        Ok(())
    }

    /// Each small whole number, and some beyond a byte, in each lane of the packers of whole numbers.
    fn small_numbers_packed(&mut self) -> io::Result<()> {
        let named = named_in(self.types);
        for (name, ty) in [
            ("pack4xI8", named("vec4<i32>")),
            ("pack4xI8Clamp", named("vec4<i32>")),
            ("pack4xU8", named("vec4<u32>")),
            ("pack4xU8Clamp", named("vec4<u32>")),
        ] {
            for number in -300..=600 {
                for lane in 0..4 {
                    let mut lanes = vec![0; 4];
                    lanes[lane] = number as u32;
                    self.unary(name, ty, &lanes)?;
                    lanes = self.lanes(ty);
                    lanes[lane] = number as u32;
                    self.unary(name, ty, &lanes)?;
                }
            }
        }
        Ok(())
    }

    /// Lines of about the greatest length that is read.
    fn long_lines(&mut self) -> io::Result<()> {
        for length in 395..=405 {
            self.line(&vec![b'a'; length])?;
            let mut line = b"abs\ti32:".to_vec();
            line.resize(length, b'0');
            self.line(&line)?;
            line.resize(length, b'\t');
            self.line(&line)?;
        }
        let types = self.types;
        for ty in types.iter().filter(|ty| ty.lanes >= 12) {
            for _ in 0..20 {
                let arguments = self.arguments(&[ty, ty, &types[0]]);
                self.call("select", None, &arguments)?;
            }
        }
        Ok(())
    }
}

/// A half's value in f32, NaN bits moved along.
fn wide(half: u32) -> u32 {
    let sign = (half & 0x8000) << 16;
    let (exponent, fraction) = (half >> 10 & 31, half & 0x3FF);
    sign | match exponent {
        31 => 0x7F80_0000 | fraction << 13,
        0 => (fraction as f32 / 16_777_216.0).to_bits(),
        _ => (exponent + 112) << 23 | fraction << 13,
    }
}

/// Halfway from a finite half to the next one away from zero. All halves, and so all halfway places, are whole
/// numbers of 2^-25, below 2^42.
fn middle(half: u32) -> u32 {
    let magnitude = half & 0x7FFF;
    let size = |half: u32| match half >> 10 {
        0 => u64::from(half),
        exponent => u64::from(half & 0x3FF | 0x400) << (exponent - 1),
    };
    let twice = size(magnitude) + size(magnitude + 1);
    (half & 0x8000) << 16 | (twice as f32 / 33_554_432.0).to_bits()
}

/// The least f32 whose f32 steps, 0.5 + scale * x, reach the code.
fn threshold(scale: f32, code: f32) -> f32 {
    // Order-preserving numbers of floats: all f32 from -1 to 1 by halving.
    let of_order = |order: i32| f32::from_bits(if order < 0 { 0x8000_0000 | -order as u32 } else { order as u32 });
    let (mut low, mut high) = (-0x3F80_0000, 0x3F80_0000);
    while low < high {
        let half = low + (high - low) / 2;
        if 0.5 + scale * of_order(half) >= code {
            high = half;
        } else {
            low = half + 1;
        }
    }
    of_order(low)
}

/// The bits of the next f32 below.
fn step_down(x: f32) -> u32 {
    match x.to_bits() {
        0 | 0x8000_0000 => 0x8000_0001,
        bits if x < 0.0 => bits + 1,
        bits => bits - 1,
    }
}

/// The random part.
impl<W: Write> Lines<W> {
    fn random_line(&mut self) -> io::Result<()> {
        let types = self.types;
        let place = self.random.below(self.builtins.len());
        let name = self.builtins[place].name;
        let (mut target, mut chosen) = self.random.pick(&self.taken[place]).clone();
        let kind = self.random.below(100);
        if kind < 10 {
            // A type of any kind in one place.
            let place = self.random.below(chosen.len() + usize::from(target.is_some()));
            let other = self.random.pick(types);
            match chosen.get_mut(place) {
                Some(ty) => *ty = other,
                None => target = Some(other),
            }
        } else if kind < 12 {
            chosen.push(self.random.pick(types));
        } else if kind < 14 {
            chosen.pop();
        }
        let arguments = self.arguments(&chosen);
        let mut line = called(name, target, &arguments);
        if kind >= 85 {
            self.damage(&mut line);
        }
        self.line(&line)
    }

    fn damage(&mut self, line: &mut Vec<u8>) {
        const BYTES: &[u8] = b"\t:,<>0123456789ABCDEFabcdefxuvmG \r\0\x7F\x80\xFF";
        let place = self.random.below(line.len());
        let byte = *self.random.pick(BYTES);
        match self.random.below(9) {
            0 => drop(line.remove(place)),
            1 => line.insert(place, byte),
            2 => line[place] = byte,
            3 => line.truncate(place),
            4 => line.push(byte),
            5 => line.extend_from_slice(b",00000000"),
            6 => line.extend_from_within(..),
            7 => line.swap(place / 2, place),
            _ => drop(line.drain(..place)),
        }
    }
}
