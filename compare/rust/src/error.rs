//! Stand-in for the crate's errors: the cases that call.rs builds. Only that a call refuses is looked at.

use crate::{inst::LiteralInstance, ty::Type};

#[derive(Clone, Debug)]
#[allow(dead_code)]
pub enum Error {
    Builtin(&'static str),
    Conversion(Type, Type),
    ConvOverflow(LiteralInstance, Type),
    ParamType(Type, Type),
    Todo(String),
}
