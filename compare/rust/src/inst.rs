//! Stand-in for the crate's values: scalars, vectors and matrices as call.rs builds them and takes them apart.
//! Pointers, references, arrays and atomics are types without values, there so that call.rs compiles.

use crate::{
    error::Error,
    ty::{Ty, Type},
};
use half::f16;

#[derive(Clone, Debug, PartialEq)]
#[allow(dead_code)]
pub enum Instance {
    Literal(LiteralInstance),
    Vec(VecInstance),
    Mat(MatInstance),
    Struct(StructInstance),
    Array(ArrayInstance),
    Ptr(PtrInstance),
    Atomic(AtomicInstance),
}

impl Instance {
    pub fn unwrap_literal(self) -> LiteralInstance {
        match self {
            Instance::Literal(l) => l,
            _ => unreachable!("not a scalar"),
        }
    }
    pub fn unwrap_literal_ref(&self) -> &LiteralInstance {
        match self {
            Instance::Literal(l) => l,
            _ => unreachable!("not a scalar"),
        }
    }
    pub fn unwrap_vec(self) -> VecInstance {
        match self {
            Instance::Vec(v) => v,
            _ => unreachable!("not a vector"),
        }
    }
}

impl Ty for Instance {
    fn ty(&self) -> Type {
        match self {
            Instance::Literal(l) => l.ty(),
            Instance::Vec(v) => v.ty(),
            Instance::Mat(m) => m.ty(),
            _ => Type::Other,
        }
    }
}

impl<T: Into<LiteralInstance>> From<T> for Instance {
    fn from(scalar: T) -> Instance {
        Instance::Literal(scalar.into())
    }
}

impl From<VecInstance> for Instance {
    fn from(v: VecInstance) -> Instance {
        Instance::Vec(v)
    }
}

impl From<MatInstance> for Instance {
    fn from(m: MatInstance) -> Instance {
        Instance::Mat(m)
    }
}

#[derive(Clone, Copy, Debug, PartialEq)]
pub enum LiteralInstance {
    Bool(bool),
    AbstractInt(i64),
    AbstractFloat(f64),
    I32(i32),
    U32(u32),
    F32(f32),
    F16(f16),
}

macro_rules! scalars {
    ($($case:ident($inner:ty) $unwrap:ident),* $(,)?) => {
        impl LiteralInstance {
            $(pub fn $unwrap(self) -> $inner {
                match self {
                    LiteralInstance::$case(n) => n,
                    _ => unreachable!("not of type {}", stringify!($inner)),
                }
            })*
        }
        $(impl From<$inner> for LiteralInstance {
            fn from(n: $inner) -> LiteralInstance {
                LiteralInstance::$case(n)
            }
        })*
        impl Ty for LiteralInstance {
            fn ty(&self) -> Type {
                match self {
                    $(LiteralInstance::$case(_) => Type::$case,)*
                }
            }
        }
    };
}

scalars!(
    Bool(bool) unwrap_bool,
    AbstractInt(i64) unwrap_abstract_int,
    AbstractFloat(f64) unwrap_abstract_float,
    I32(i32) unwrap_i32,
    U32(u32) unwrap_u32,
    F32(f32) unwrap_f32,
    F16(f16) unwrap_f16,
);

/// A vector, lane 0 first. Never without lanes.
#[derive(Clone, Debug, PartialEq)]
pub struct VecInstance {
    lanes: Vec<Instance>,
}

impl VecInstance {
    pub fn new(lanes: Vec<Instance>) -> VecInstance {
        VecInstance { lanes }
    }
    pub fn n(&self) -> usize {
        self.lanes.len()
    }
    pub fn get(&self, i: usize) -> Option<&Instance> {
        self.lanes.get(i)
    }
    pub fn iter(&self) -> std::slice::Iter<'_, Instance> {
        self.lanes.iter()
    }
}

impl std::ops::Index<usize> for VecInstance {
    type Output = Instance;
    fn index(&self, i: usize) -> &Instance {
        &self.lanes[i]
    }
}

impl IntoIterator for VecInstance {
    type Item = Instance;
    type IntoIter = std::vec::IntoIter<Instance>;
    fn into_iter(self) -> Self::IntoIter {
        self.lanes.into_iter()
    }
}

impl Ty for VecInstance {
    fn ty(&self) -> Type {
        Type::Vec(self.n() as u8, Box::new(self.inner_ty()))
    }
    fn inner_ty(&self) -> Type {
        self.lanes[0].ty()
    }
}

/// A matrix, column by column. Never without columns.
#[derive(Clone, Debug, PartialEq)]
pub struct MatInstance {
    columns: Vec<Instance>,
}

impl MatInstance {
    pub fn from_cols(columns: Vec<Instance>) -> MatInstance {
        MatInstance { columns }
    }
    pub fn c(&self) -> usize {
        self.columns.len()
    }
    pub fn r(&self) -> usize {
        self.column(0).map_or(0, VecInstance::n)
    }
    pub fn column(&self, i: usize) -> Option<&VecInstance> {
        match self.columns.get(i) {
            Some(Instance::Vec(v)) => Some(v),
            _ => None,
        }
    }
    /// The lane at column `i`, row `j`.
    pub fn get(&self, i: usize, j: usize) -> Option<&Instance> {
        self.column(i)?.get(j)
    }
}

impl Ty for MatInstance {
    fn ty(&self) -> Type {
        Type::Mat(self.c() as u8, self.r() as u8, Box::new(self.inner_ty()))
    }
    fn inner_ty(&self) -> Type {
        self.columns[0].inner_ty()
    }
}

/// The name of a struct type that a builtin answers.
#[derive(Clone, Debug, PartialEq)]
pub struct StructType(pub &'static str);

#[derive(Clone, Debug, PartialEq)]
pub struct StructInstance {
    pub ty: StructType,
    pub members: Vec<Instance>,
}

impl StructInstance {
    pub fn new(ty: StructType, members: Vec<Instance>) -> StructInstance {
        StructInstance { ty, members }
    }
}

#[derive(Clone, Debug, PartialEq)]
pub enum ArrayInstance {}

impl ArrayInstance {
    pub fn n(&self) -> usize {
        match *self {}
    }
}

#[derive(Clone, Debug, PartialEq)]
pub enum RefInstance {}

impl RefInstance {
    pub fn read(&self) -> Result<&Instance, Error> {
        match *self {}
    }
    pub fn read_write(&self) -> Result<&mut Instance, Error> {
        match *self {}
    }
}

#[derive(Clone, Debug, PartialEq)]
pub struct PtrInstance {
    pub ptr: RefInstance,
}

impl From<PtrInstance> for RefInstance {
    fn from(p: PtrInstance) -> RefInstance {
        p.ptr
    }
}

#[derive(Clone, Debug, PartialEq)]
pub struct AtomicInstance {
    inner: Box<Instance>,
}

impl AtomicInstance {
    pub fn new(inner: Instance) -> AtomicInstance {
        AtomicInstance { inner: Box::new(inner) }
    }
    pub fn inner(&self) -> &Instance {
        &self.inner
    }
}
