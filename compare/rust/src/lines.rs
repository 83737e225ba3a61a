//! Document 01's lines: how calls are read and answers written. Whatever is no call of 01's domain by its spelling
//! or its count of arguments is refused here, before call.rs sees it.

use crate::{
    builtin::call,
    error::Error,
    inst::{Instance, LiteralInstance, MatInstance, VecInstance},
    ty::{Ty, Type},
    ShaderStage,
};
use half::f16;

/// 01: "the line has more than 400 bytes, newline not counted".
const LONGEST: usize = 400;

type Folded = Result<Instance, Error>;

/// A builtin of 01's table, by what it takes.
enum Builtin {
    Bitcast,
    One(fn(&Instance) -> Folded),
    OneAtStage(fn(&Instance, ShaderStage) -> Folded),
    Two(fn(&Instance, &Instance) -> Folded),
    TwoAtStage(fn(&Instance, &Instance, ShaderStage) -> Folded),
    Three(fn(&Instance, &Instance, &Instance) -> Folded),
}

use Builtin::*;

fn builtin(name: &[u8]) -> Option<Builtin> {
    Some(match name {
        b"bitcast" => Bitcast,
        b"all" => One(call::all),
        b"any" => One(call::any),
        b"select" => Three(call::select),
        b"abs" => One(call::abs),
        b"sign" => One(call::sign),
        b"countLeadingZeros" => One(call::countLeadingZeros),
        b"countOneBits" => One(call::countOneBits),
        b"countTrailingZeros" => One(call::countTrailingZeros),
        b"min" => Two(call::min),
        b"max" => Two(call::max),
        b"clamp" => Three(call::clamp),
        b"saturate" => One(call::saturate),
        b"step" => Two(call::step),
        b"cross" => TwoAtStage(call::cross),
        b"dot" => TwoAtStage(call::dot),
        b"transpose" => One(call::transpose),
        b"frexp" => One(call::frexp),
        b"ldexp" => Two(call::ldexp),
        b"pack4x8snorm" => One(call::pack4x8snorm),
        b"pack4x8unorm" => One(call::pack4x8unorm),
        b"pack4xI8" => One(call::pack4xI8),
        b"pack4xU8" => One(call::pack4xU8),
        b"pack4xI8Clamp" => One(call::pack4xI8Clamp),
        b"pack4xU8Clamp" => One(call::pack4xU8Clamp),
        b"pack2x16snorm" => One(call::pack2x16snorm),
        b"pack2x16unorm" => One(call::pack2x16unorm),
        b"pack2x16float" => One(call::pack2x16float),
        b"unpack4x8snorm" => One(call::unpack4x8snorm),
        b"unpack4x8unorm" => One(call::unpack4x8unorm),
        b"unpack4xI8" => One(call::unpack4xI8),
        b"unpack4xU8" => One(call::unpack4xU8),
        b"unpack2x16snorm" => One(call::unpack2x16snorm),
        b"unpack2x16unorm" => One(call::unpack2x16unorm),
        b"unpack2x16float" => One(call::unpack2x16float),
        b"floor" => One(call::floor),
        b"ceil" => One(call::ceil),
        b"trunc" => One(call::trunc),
        b"round" => One(call::round),
        b"fract" => OneAtStage(call::fract),
        _ => return None,
    })
}

/// A call as a line spells it.
pub struct Call {
    builtin: Builtin,
    target: Type,
    arguments: [Instance; 3],
}

impl Call {
    pub fn fold(&self) -> Folded {
        let [a, b, c] = &self.arguments;
        match self.builtin {
            Bitcast => call::bitcast_t(&self.target, a),
            One(f) => f(a),
            OneAtStage(f) => f(a, ShaderStage::Exec),
            Two(f) => f(a, b),
            TwoAtStage(f) => f(a, b, ShaderStage::Exec),
            Three(f) => f(a, b, c),
        }
    }
}

pub fn read_call(line: &[u8]) -> Option<Call> {
    if line.len() > LONGEST {
        return None;
    }
    let mut fields = line.split(|&byte| byte == b'\t');
    let builtin = builtin(fields.next()?)?;
    let target = match builtin {
        Bitcast => read_type(fields.next()?)?,
        _ => Type::Other,
    };
    let count = match builtin {
        Bitcast | One(_) | OneAtStage(_) => 1,
        Two(_) | TwoAtStage(_) => 2,
        Three(_) => 3,
    };
    let none = Instance::Literal(LiteralInstance::Bool(false));
    let mut arguments = [none.clone(), none.clone(), none];
    for argument in &mut arguments[..count] {
        *argument = read_value(fields.next()?)?;
    }
    match fields.next() {
        None => Some(Call { builtin, target, arguments }),
        Some(_) => None,
    }
}

fn read_type(spelling: &[u8]) -> Option<Type> {
    let size = |digit: u8| matches!(digit, b'2'..=b'4').then(|| digit - b'0');
    match spelling {
        [b'v', b'e', b'c', n, b'<', scalar @ .., b'>'] => Some(Type::Vec(size(*n)?, Box::new(read_scalar(scalar)?))),
        [b'm', b'a', b't', c, b'x', r, b'<', scalar @ .., b'>'] => match read_scalar(scalar)? {
            scalar @ (Type::F32 | Type::F16) => Some(Type::Mat(size(*c)?, size(*r)?, Box::new(scalar))),
            _ => None,
        },
        scalar => read_scalar(scalar),
    }
}

fn read_scalar(spelling: &[u8]) -> Option<Type> {
    Some(match spelling {
        b"bool" => Type::Bool,
        b"i32" => Type::I32,
        b"u32" => Type::U32,
        b"f32" => Type::F32,
        b"f16" => Type::F16,
        _ => return None,
    })
}

fn read_value(field: &[u8]) -> Option<Instance> {
    let colon = field.iter().position(|&byte| byte == b':')?;
    let ty = read_type(&field[..colon])?;
    let mut lanes = field[colon + 1..].split(|&byte| byte == b',');
    let mut vector = |n: u8, scalar: &Type| {
        let read = |_| read_lane(lanes.next()?, scalar).map(Instance::Literal);
        (0..n).map(read).collect::<Option<Vec<_>>>().map(VecInstance::new)
    };
    let value = match &ty {
        Type::Vec(n, scalar) => vector(*n, scalar)?.into(),
        Type::Mat(c, r, scalar) => {
            let columns = (0..*c).map(|_| vector(*r, scalar).map(Instance::Vec)).collect::<Option<Vec<_>>>()?;
            MatInstance::from_cols(columns).into()
        }
        scalar => read_lane(lanes.next()?, scalar)?.into(),
    };
    match lanes.next() {
        None => Some(value),
        Some(_) => None,
    }
}

fn read_lane(digits: &[u8], scalar: &Type) -> Option<LiteralInstance> {
    let bits = |count: usize| {
        if digits.len() != count {
            return None;
        }
        digits.iter().try_fold(0u32, |bits, digit| {
            let value = match digit {
                b'0'..=b'9' => digit - b'0',
                b'A'..=b'F' => digit - b'A' + 10,
                _ => return None,
            };
            Some(bits << 4 | u32::from(value))
        })
    };
    Some(match scalar {
        Type::Bool => match digits {
            b"0" => LiteralInstance::Bool(false),
            b"1" => LiteralInstance::Bool(true),
            _ => return None,
        },
        Type::I32 => LiteralInstance::I32(bits(8)? as i32),
        Type::U32 => LiteralInstance::U32(bits(8)?),
        Type::F32 => LiteralInstance::F32(f32::from_bits(bits(8)?)),
        Type::F16 => LiteralInstance::F16(f16::from_bits(bits(4)? as u16)),
        _ => return None,
    })
}

/// An answer in 01's spelling, frexp's as two fields. A scalar of an abstract type, which step answers, is spelled
/// `afloat` or `aint` with 16 digits.
pub fn write_answer(answer: &Instance, out: &mut Vec<u8>) {
    match answer {
        Instance::Struct(pair) => {
            for (i, member) in pair.members.iter().enumerate() {
                if i > 0 {
                    out.push(b'\t');
                }
                write_answer(member, out);
            }
        }
        value => {
            write_type(&value.ty(), out);
            out.push(b':');
            write_lanes(value, out);
        }
    }
}

fn write_type(ty: &Type, out: &mut Vec<u8>) {
    match ty {
        Type::Vec(n, scalar) => {
            out.extend_from_slice(&[b'v', b'e', b'c', b'0' + n, b'<']);
            write_type(scalar, out);
            out.push(b'>');
        }
        Type::Mat(c, r, scalar) => {
            out.extend_from_slice(&[b'm', b'a', b't', b'0' + c, b'x', b'0' + r, b'<']);
            write_type(scalar, out);
            out.push(b'>');
        }
        Type::Bool => out.extend_from_slice(b"bool"),
        Type::I32 => out.extend_from_slice(b"i32"),
        Type::U32 => out.extend_from_slice(b"u32"),
        Type::F32 => out.extend_from_slice(b"f32"),
        Type::F16 => out.extend_from_slice(b"f16"),
        Type::AbstractInt => out.extend_from_slice(b"aint"),
        Type::AbstractFloat => out.extend_from_slice(b"afloat"),
        Type::Other => unreachable!("an answer is a scalar, a vector, a matrix or a pair of them"),
    }
}

fn write_lanes(value: &Instance, out: &mut Vec<u8>) {
    match value {
        Instance::Literal(lane) => match *lane {
            LiteralInstance::Bool(b) => write_digits(u64::from(b), 1, out),
            LiteralInstance::I32(n) => write_digits(u64::from(n as u32), 8, out),
            LiteralInstance::U32(n) => write_digits(u64::from(n), 8, out),
            LiteralInstance::F32(n) => write_digits(u64::from(n.to_bits()), 8, out),
            LiteralInstance::F16(n) => write_digits(u64::from(n.to_bits()), 4, out),
            LiteralInstance::AbstractInt(n) => write_digits(n as u64, 16, out),
            LiteralInstance::AbstractFloat(n) => write_digits(n.to_bits(), 16, out),
        },
        Instance::Vec(v) => write_parted(v.iter(), out),
        Instance::Mat(m) => {
            let columns = (0..m.c()).filter_map(|i| m.column(i));
            write_parted(columns.flat_map(VecInstance::iter), out)
        }
        _ => unreachable!("an answer is a scalar, a vector, a matrix or a pair of them"),
    }
}

fn write_parted<'a>(lanes: impl Iterator<Item = &'a Instance>, out: &mut Vec<u8>) {
    for (i, lane) in lanes.enumerate() {
        if i > 0 {
            out.push(b',');
        }
        write_lanes(lane, out);
    }
}

fn write_digits(bits: u64, count: u32, out: &mut Vec<u8>) {
    for i in (0..count).rev() {
        out.push(b"0123456789ABCDEF"[(bits >> (4 * i) & 15) as usize]);
    }
}
