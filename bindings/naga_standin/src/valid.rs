//! What a validator finds out.

use crate::proc::TypeResolution;
use crate::{AddressSpace, Expression, Function, Handle, Literal, MathFunction, Module};
use crate::{PredeclaredType, Scalar, TypeInner};
use serde::Serialize;
use std::ops::Index;

#[derive(Clone, Copy, Debug, PartialEq, Eq)]
pub struct ValidationFlags;

impl ValidationFlags {
    pub const fn all() -> Self {
        ValidationFlags
    }
}

#[derive(Clone, Copy, Debug, PartialEq, Eq)]
pub struct Capabilities;

impl Capabilities {
    pub const fn all() -> Self {
        Capabilities
    }
}

/// What the stand-in never says.
#[derive(Debug)]
pub struct ValidationError;

#[derive(Clone, Copy, Debug, Serialize)]
pub struct Uniformity {
    pub non_uniform_result: Option<Handle<Expression>>,
    pub requirements: u8,
}

#[derive(Clone, Debug, Serialize)]
pub struct ExpressionInfo {
    pub uniformity: Uniformity,
    pub ref_count: usize,
    assignable_global: Option<Handle<()>>,
    pub ty: TypeResolution,
}

#[derive(Debug, Serialize)]
pub struct FunctionInfo {
    flags: u8,
    pub uniformity: Uniformity,
    pub may_kill: bool,
    expressions: Box<[ExpressionInfo]>,
}

#[derive(Debug, Default, Serialize)]
pub struct ModuleInfo {
    type_flags: Vec<u8>,
    functions: Vec<FunctionInfo>,
    entry_points: Vec<FunctionInfo>,
    const_expression_types: Box<[TypeResolution]>,
}

impl ModuleInfo {
    pub fn get_entry_point(&self, index: usize) -> &FunctionInfo {
        &self.entry_points[index]
    }
}

impl Index<Handle<Function>> for ModuleInfo {
    type Output = FunctionInfo;

    fn index(&self, handle: Handle<Function>) -> &FunctionInfo {
        &self.functions[handle.index()]
    }
}

impl Index<Handle<Expression>> for ModuleInfo {
    type Output = TypeResolution;

    fn index(&self, handle: Handle<Expression>) -> &TypeResolution {
        &self.const_expression_types[handle.index()]
    }
}

impl Index<Handle<Expression>> for FunctionInfo {
    type Output = ExpressionInfo;

    fn index(&self, handle: Handle<Expression>) -> &ExpressionInfo {
        &self.expressions[handle.index()]
    }
}

#[derive(Debug)]
pub struct Validator;

impl Validator {
    pub fn new(_flags: ValidationFlags, _capabilities: Capabilities) -> Self {
        Validator
    }

    pub fn validate(&mut self, module: &Module) -> Result<ModuleInfo, ValidationError> {
        let empty = Function::default();
        let constants = types_of(
            module,
            &empty,
            module.global_expressions.iter().map(|it| it.1),
        );
        Ok(ModuleInfo {
            type_flags: Vec::new(),
            functions: module
                .functions
                .iter()
                .map(|it| info_of(module, it.1))
                .collect(),
            entry_points: module
                .entry_points
                .iter()
                .map(|entry| info_of(module, &entry.function))
                .collect(),
            const_expression_types: constants.into(),
        })
    }
}

const UNIFORM: Uniformity = Uniformity {
    non_uniform_result: None,
    requirements: 0,
};

fn info_of(module: &Module, function: &Function) -> FunctionInfo {
    let types = types_of(module, function, function.expressions.iter().map(|it| it.1));
    let of = |ty| ExpressionInfo {
        uniformity: UNIFORM,
        ref_count: 1,
        assignable_global: None,
        ty,
    };
    FunctionInfo {
        flags: 0,
        uniformity: UNIFORM,
        may_kill: false,
        expressions: types.into_iter().map(of).collect(),
    }
}

fn types_of<'a>(
    module: &Module,
    function: &Function,
    expressions: impl Iterator<Item = &'a Expression>,
) -> Vec<TypeResolution> {
    let mut types: Vec<TypeResolution> = Vec::new();
    for expression in expressions {
        let ty = match *expression {
            Expression::Literal(Literal::F32(_)) => {
                TypeResolution::Value(TypeInner::Scalar(Scalar::F32))
            }
            Expression::Literal(Literal::I32(_)) => {
                TypeResolution::Value(TypeInner::Scalar(Scalar::I32))
            }
            Expression::FunctionArgument(index) => {
                TypeResolution::Handle(function.arguments[index as usize].ty)
            }
            Expression::LocalVariable(variable) => TypeResolution::Value(TypeInner::Pointer {
                base: function.local_variables[variable].ty,
                space: AddressSpace::Function,
            }),
            Expression::Load { pointer } => match types[pointer.index()] {
                TypeResolution::Value(TypeInner::Pointer { base, .. }) => {
                    TypeResolution::Handle(base)
                }
                _ => unimplemented!("the stand-in loads locals alone"),
            },
            Expression::AccessIndex { base, index } => match types[base.index()] {
                TypeResolution::Handle(ty) => match module.types[ty].inner {
                    TypeInner::Struct { ref members, .. } => {
                        TypeResolution::Handle(members[index as usize].ty)
                    }
                    _ => unimplemented!("the stand-in has members of structs alone"),
                },
                _ => unimplemented!("the stand-in has members of structs alone"),
            },
            Expression::Unary { expr, .. } => types[expr.index()].clone(),
            Expression::Binary { left, .. } => types[left.index()].clone(),
            Expression::Math {
                fun: MathFunction::Modf,
                ..
            } => {
                let which = PredeclaredType::ModfResult {
                    size: None,
                    scalar: Scalar::F32,
                };
                TypeResolution::Handle(*module.special_types.predeclared_types.get(&which).unwrap())
            }
        };
        types.push(ty);
    }
    types
}
