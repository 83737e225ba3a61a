//! The crate's module of builtins: call.rs is the real one, the rest of this file stands in.

use crate::{
    error::Error,
    inst::{Instance, LiteralInstance, StructType, VecInstance},
    ty::{Ty, Type},
};

#[rustfmt::skip]
#[path = "../../../docs/src/src/builtin/call.rs"]
#[allow(dead_code, unreachable_code, unused_variables, unused_mut)]
pub mod call;

/// A scalar function lane by lane. Two vectors of different lengths refuse: of the calls that a line can spell only
/// ldexp brings such a pair, and document 01 refuses it ("i32 of the same shape").
pub trait Compwise: Sized {
    fn compwise_unary(&self, f: impl Fn(&LiteralInstance) -> Result<LiteralInstance, Error>) -> Result<Self, Error>;
    fn compwise_binary(
        &self,
        other: &Self,
        f: impl Fn(&LiteralInstance, &LiteralInstance) -> Result<LiteralInstance, Error>,
    ) -> Result<Self, Error>;
}

impl Compwise for VecInstance {
    fn compwise_unary(
        &self,
        f: impl Fn(&LiteralInstance) -> Result<LiteralInstance, Error>,
    ) -> Result<VecInstance, Error> {
        self.iter()
            .map(|a| f(a.unwrap_literal_ref()).map(Instance::Literal))
            .collect::<Result<Vec<_>, _>>()
            .map(VecInstance::new)
    }
    fn compwise_binary(
        &self,
        other: &VecInstance,
        f: impl Fn(&LiteralInstance, &LiteralInstance) -> Result<LiteralInstance, Error>,
    ) -> Result<VecInstance, Error> {
        if self.n() != other.n() {
            return Err(Error::Builtin("vectors of different lengths"));
        }
        self.iter()
            .zip(other.iter())
            .map(|(a, b)| f(a.unwrap_literal_ref(), b.unwrap_literal_ref()).map(Instance::Literal))
            .collect::<Result<Vec<_>, _>>()
            .map(VecInstance::new)
    }
}

/// The struct that frexp answers; none for a type that is no float, scalar or vector.
pub fn frexp_struct_type(ty: &Type) -> Option<StructType> {
    match (ty, ty.inner_ty()) {
        (Type::Mat(..), _) => None,
        (_, Type::F32 | Type::F16 | Type::AbstractFloat) => Some(StructType("__frexp_result")),
        _ => None,
    }
}

pub fn atomic_compare_exchange_struct_type(_: &Type) -> StructType {
    StructType("__atomic_compare_exchange_result")
}
