//! Stand-in for the crate's types: document 01's, and the abstract numbers that saturate and step meet.

#[derive(Clone, Debug, PartialEq)]
pub enum Type {
    Bool,
    AbstractInt,
    AbstractFloat,
    I32,
    U32,
    F32,
    F16,
    Vec(u8, Box<Type>),
    Mat(u8, u8, Box<Type>),
    /// Structs, pointers and the like: no line spells one.
    Other,
}

/// The type of a value, and the scalar type of its lanes.
pub trait Ty {
    fn ty(&self) -> Type;
    fn inner_ty(&self) -> Type {
        match self.ty() {
            Type::Vec(_, inner) | Type::Mat(_, _, inner) => *inner,
            scalar => scalar,
        }
    }
}

impl Ty for Type {
    fn ty(&self) -> Type {
        self.clone()
    }
}
