//! Types of expressions.

use crate::{Handle, Type, TypeInner};
use serde::Serialize;

#[derive(Clone, Debug, PartialEq, Serialize)]
pub enum TypeResolution {
    Handle(Handle<Type>),
    Value(TypeInner),
}
