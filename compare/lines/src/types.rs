//! Document 01's types, and what each builtin of its table takes.

#[derive(Clone, Copy, PartialEq, Eq)]
pub enum Scalar {
    Bool,
    I32,
    U32,
    F32,
    F16,
}

use Scalar::*;

impl Scalar {
    fn spelling(self) -> &'static str {
        match self {
            Bool => "bool",
            I32 => "i32",
            U32 => "u32",
            F32 => "f32",
            F16 => "f16",
        }
    }
    pub fn digits(self) -> usize {
        match self {
            Bool => 1,
            I32 | U32 | F32 => 8,
            F16 => 4,
        }
    }
}

#[derive(Clone, Copy, PartialEq, Eq)]
pub enum Kind {
    Single,
    Vector,
    Matrix,
}

#[derive(Clone, PartialEq)]
pub struct Type {
    pub spelling: String,
    pub kind: Kind,
    pub scalar: Scalar,
    pub lanes: usize,
}

pub fn all_types() -> Vec<Type> {
    let mut types = Vec::new();
    for scalar in [Bool, I32, U32, F32, F16] {
        types.push(Type { spelling: scalar.spelling().to_string(), kind: Kind::Single, scalar, lanes: 1 });
    }
    for n in 2..=4 {
        for scalar in [Bool, I32, U32, F32, F16] {
            let spelling = format!("vec{}<{}>", n, scalar.spelling());
            types.push(Type { spelling, kind: Kind::Vector, scalar, lanes: n });
        }
    }
    for scalar in [F32, F16] {
        for c in 2..=4 {
            for r in 2..=4 {
                let spelling = format!("mat{}x{}<{}>", c, r, scalar.spelling());
                types.push(Type { spelling, kind: Kind::Matrix, scalar, lanes: c * r });
            }
        }
    }
    types
}

impl Type {
    fn among(&self, scalars: &[Scalar]) -> bool {
        self.kind != Kind::Matrix && scalars.contains(&self.scalar)
    }
    fn bytes(&self) -> usize {
        self.lanes * self.scalar.digits() / 2
    }
}

/// A row of 01's table, or of Q-3's builtins.
pub struct Builtin {
    pub name: &'static str,
    /// Values taken; bitcast's target is not counted.
    pub arguments: usize,
    row: Row,
}

enum Row {
    /// One type throughout, a scalar or a vector of these scalars.
    Lanes(&'static [Scalar]),
    /// One type throughout, this one.
    Only(&'static str),
    Select,
    Dot,
    Transpose,
    Ldexp,
    Bitcast,
}

pub fn builtins() -> Vec<Builtin> {
    let row = |name, arguments, row| Builtin { name, arguments, row };
    vec![
        row("all", 1, Row::Lanes(&[Bool])),
        row("any", 1, Row::Lanes(&[Bool])),
        row("select", 3, Row::Select),
        row("abs", 1, Row::Lanes(&[I32, U32, F32, F16])),
        row("sign", 1, Row::Lanes(&[I32, U32, F32, F16])),
        row("countLeadingZeros", 1, Row::Lanes(&[I32, U32])),
        row("countOneBits", 1, Row::Lanes(&[I32, U32])),
        row("countTrailingZeros", 1, Row::Lanes(&[I32, U32])),
        row("min", 2, Row::Lanes(&[I32, U32, F32])),
        row("max", 2, Row::Lanes(&[I32, U32, F32])),
        row("clamp", 3, Row::Lanes(&[I32, U32, F32])),
        row("saturate", 1, Row::Lanes(&[F32])),
        row("step", 2, Row::Lanes(&[F32, F16])),
        row("cross", 2, Row::Only("vec3<f32>")),
        row("dot", 2, Row::Dot),
        row("transpose", 1, Row::Transpose),
        row("frexp", 1, Row::Lanes(&[F32, F16])),
        row("ldexp", 2, Row::Ldexp),
        row("bitcast", 1, Row::Bitcast),
        row("pack4x8snorm", 1, Row::Only("vec4<f32>")),
        row("pack4x8unorm", 1, Row::Only("vec4<f32>")),
        row("pack4xI8", 1, Row::Only("vec4<i32>")),
        row("pack4xI8Clamp", 1, Row::Only("vec4<i32>")),
        row("pack4xU8", 1, Row::Only("vec4<u32>")),
        row("pack4xU8Clamp", 1, Row::Only("vec4<u32>")),
        row("pack2x16snorm", 1, Row::Only("vec2<f32>")),
        row("pack2x16unorm", 1, Row::Only("vec2<f32>")),
        row("pack2x16float", 1, Row::Only("vec2<f32>")),
        row("unpack4x8snorm", 1, Row::Only("u32")),
        row("unpack4x8unorm", 1, Row::Only("u32")),
        row("unpack4xI8", 1, Row::Only("u32")),
        row("unpack4xU8", 1, Row::Only("u32")),
        row("unpack2x16snorm", 1, Row::Only("u32")),
        row("unpack2x16unorm", 1, Row::Only("u32")),
        row("unpack2x16float", 1, Row::Only("u32")),
        row("floor", 1, Row::Lanes(&[F32, F16])),
        row("ceil", 1, Row::Lanes(&[F32, F16])),
        row("trunc", 1, Row::Lanes(&[F32, F16])),
        row("round", 1, Row::Lanes(&[F32, F16])),
        row("fract", 1, Row::Lanes(&[F32, F16])),
    ]
}

impl Builtin {
    pub fn has_target(&self) -> bool {
        matches!(self.row, Row::Bitcast)
    }

    /// Whether these types are taken together.
    pub fn takes(&self, target: Option<&Type>, types: &[&Type]) -> bool {
        let one_type = types.iter().all(|ty| *ty == types[0]);
        match (&self.row, types) {
            (Row::Lanes(scalars), _) => one_type && types[0].among(scalars),
            (Row::Only(spelling), _) => one_type && types[0].spelling == *spelling,
            (Row::Select, [f, t, condition]) => {
                let shape = condition.kind == Kind::Single || f.kind == Kind::Vector && f.lanes == condition.lanes;
                f == t && condition.scalar == Bool && shape
            }
            (Row::Dot, _) => one_type && types[0].kind == Kind::Vector && types[0].among(&[I32, U32, F32]),
            (Row::Transpose, _) => types[0].kind == Kind::Matrix,
            (Row::Ldexp, [x, n]) => x.among(&[F32]) && n.among(&[I32]) && x.lanes == n.lanes,
            (Row::Bitcast, [value]) => match target {
                Some(target) => {
                    let numeric = [I32, U32, F32, F16];
                    target.among(&numeric) && value.among(&numeric) && target.bytes() == value.bytes()
                }
                None => false,
            },
            _ => false,
        }
    }

    /// Every way of types that is taken.
    pub fn taken<'a>(&self, types: &'a [Type]) -> Vec<(Option<&'a Type>, Vec<&'a Type>)> {
        let mut taken = Vec::new();
        for a in types {
            if self.has_target() {
                taken.extend(types.iter().filter(|b| self.takes(Some(a), &[b])).map(|b| (Some(a), vec![b])));
            } else if self.arguments == 1 {
                taken.extend(self.takes(None, &[a]).then(|| (None, vec![a])));
            } else if self.arguments == 2 {
                taken.extend(types.iter().filter(|b| self.takes(None, &[a, b])).map(|b| (None, vec![a, b])));
            } else {
                // Of three arguments the first two are always of one type.
                taken.extend(types.iter().filter(|c| self.takes(None, &[a, a, c])).map(|c| (None, vec![a, a, c])));
            }
        }
        taken
    }
}
