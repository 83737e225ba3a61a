//! Stand-in for the crate's conversions, as the WGSL text has them. Document 01: "Concrete types never convert into
//! each other." So of the calls that a line can spell only saturate converts, its own 0.0 and 1.0, which are
//! abstract floats, to f32 or f16, exactly.

use crate::{
    inst::{Instance, LiteralInstance, MatInstance, VecInstance},
    ty::{Ty, Type},
};
use half::f16;

pub trait Convert: Sized + Clone + Ty {
    /// The value as one of type `ty`.
    fn convert_to(&self, ty: &Type) -> Option<Self>;
    /// The value with its lanes as ones of the scalar type `ty`.
    fn convert_inner_to(&self, ty: &Type) -> Option<Self>;
}

impl Convert for LiteralInstance {
    fn convert_to(&self, ty: &Type) -> Option<LiteralInstance> {
        use LiteralInstance as L;
        Some(match (*self, ty) {
            (l, ty) if l.ty() == *ty => l,
            (L::AbstractInt(n), Type::AbstractFloat) => L::AbstractFloat(n as f64),
            (L::AbstractInt(n), Type::I32) => L::I32(n.try_into().ok()?),
            (L::AbstractInt(n), Type::U32) => L::U32(n.try_into().ok()?),
            (L::AbstractInt(n), Type::F32) => L::F32(n as f32),
            (L::AbstractInt(n), Type::F16) => L::F16(f16::from_f64(n as f64)),
            (L::AbstractFloat(n), Type::F32) => L::F32(n as f32),
            (L::AbstractFloat(n), Type::F16) => L::F16(f16::from_f64(n)),
            _ => return None,
        })
    }
    fn convert_inner_to(&self, ty: &Type) -> Option<LiteralInstance> {
        self.convert_to(ty)
    }
}

impl Convert for VecInstance {
    fn convert_to(&self, ty: &Type) -> Option<VecInstance> {
        match ty {
            Type::Vec(n, inner) if usize::from(*n) == self.n() => self.convert_inner_to(inner),
            _ => None,
        }
    }
    fn convert_inner_to(&self, ty: &Type) -> Option<VecInstance> {
        let lanes = self.iter().map(|lane| lane.convert_inner_to(ty)).collect::<Option<Vec<_>>>()?;
        Some(VecInstance::new(lanes))
    }
}

impl Convert for MatInstance {
    fn convert_to(&self, ty: &Type) -> Option<MatInstance> {
        (self.ty() == *ty).then(|| self.clone())
    }
    fn convert_inner_to(&self, ty: &Type) -> Option<MatInstance> {
        (self.inner_ty() == *ty).then(|| self.clone())
    }
}

impl Convert for Instance {
    fn convert_to(&self, ty: &Type) -> Option<Instance> {
        match self {
            Instance::Literal(l) => l.convert_to(ty).map(Instance::Literal),
            Instance::Vec(v) => v.convert_to(ty).map(Instance::Vec),
            Instance::Mat(m) => m.convert_to(ty).map(Instance::Mat),
            _ => None,
        }
    }
    fn convert_inner_to(&self, ty: &Type) -> Option<Instance> {
        match self {
            Instance::Literal(l) => l.convert_inner_to(ty).map(Instance::Literal),
            Instance::Vec(v) => v.convert_inner_to(ty).map(Instance::Vec),
            Instance::Mat(m) => m.convert_inner_to(ty).map(Instance::Mat),
            _ => None,
        }
    }
}

/// Whether the text converts `from` to `to` by itself.
fn feasible(from: &Type, to: &Type) -> bool {
    use Type::*;
    match (from, to) {
        (AbstractInt, AbstractFloat | I32 | U32 | F32 | F16) | (AbstractFloat, F32 | F16) => true,
        (Vec(n, from), Vec(m, to)) => n == m && feasible(from, to),
        _ => from == to,
    }
}

/// The one among `types` that all the others convert to.
pub fn convert_all_ty(types: &[Type]) -> Option<&Type> {
    types.iter().find(|&to| types.iter().all(|from| feasible(from, to)))
}

/// Two values at their common type.
pub fn convert(a: &Instance, b: &Instance) -> Option<(Instance, Instance)> {
    let types = [a.ty(), b.ty()];
    let ty = convert_all_ty(&types)?;
    Some((a.convert_to(ty)?, b.convert_to(ty)?))
}
