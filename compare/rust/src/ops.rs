//! Stand-in for the crate's operators, at stage Exec. Document 01: f32 operations are IEEE 754's, each rounded once,
//! and integer ones wrap at 32 bits. f16 goes through f32 (outside 01's domain). No operator takes a bool.
//! `op_div` and the bit operators serve builtins that no line names; they refuse.

use crate::{
    builtin::Compwise,
    error::Error,
    inst::{Instance, LiteralInstance, VecInstance},
    ShaderStage,
};

const NO_OPERATOR: Error = Error::Builtin("no such operator");

macro_rules! operator {
    ($($name:ident: $float:tt, $wrapping:ident);* $(;)?) => {
        impl LiteralInstance {
            $(#[inline]
            pub fn $name(&self, other: &LiteralInstance, _: ShaderStage) -> Result<LiteralInstance, Error> {
                use LiteralInstance as L;
                Ok(match (*self, *other) {
                    (L::I32(a), L::I32(b)) => L::I32(a.$wrapping(b)),
                    (L::U32(a), L::U32(b)) => L::U32(a.$wrapping(b)),
                    (L::F32(a), L::F32(b)) => L::F32(a $float b),
                    (L::F16(a), L::F16(b)) => L::F16(a $float b),
                    _ => return Err(NO_OPERATOR),
                })
            })*
        }

        impl VecInstance {
            $(pub fn $name(&self, other: &VecInstance, stage: ShaderStage) -> Result<VecInstance, Error> {
                self.compwise_binary(other, |a, b| a.$name(b, stage))
            })*
        }

        impl Instance {
            $(#[inline]
            pub fn $name(&self, other: &Instance, stage: ShaderStage) -> Result<Instance, Error> {
                match (self, other) {
                    (Instance::Literal(a), Instance::Literal(b)) => a.$name(b, stage).map(Into::into),
                    (Instance::Vec(a), Instance::Vec(b)) => a.$name(b, stage).map(Into::into),
                    _ => Err(NO_OPERATOR),
                }
            })*
        }
    };
}

operator! {
    op_add: +, wrapping_add;
    op_sub: -, wrapping_sub;
    op_mul: *, wrapping_mul;
}

impl Instance {
    pub fn op_div(&self, _: &Instance, _: ShaderStage) -> Result<Instance, Error> {
        Err(NO_OPERATOR)
    }
    pub fn op_bitand(&self, _: &Instance) -> Result<Instance, Error> {
        Err(NO_OPERATOR)
    }
    pub fn op_bitor(&self, _: &Instance) -> Result<Instance, Error> {
        Err(NO_OPERATOR)
    }
    pub fn op_bitxor(&self, _: &Instance) -> Result<Instance, Error> {
        Err(NO_OPERATOR)
    }
}
