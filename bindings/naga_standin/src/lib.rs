//! A stand-in for naga 30, where naga isn't at hand: the names, fields and derived `serde` forms that
//! `yorwethul-naga` and its tests use, written from naga's documentation. It reads no shader and
//! writes none; its validator finds the types of a few kinds of expressions and refuses nothing.
#![allow(missing_docs)]

pub mod diagnostic_filter;
pub mod proc;
pub mod valid;

mod arena;

pub use arena::{Arena, FastIndexMap, Handle, Range, UniqueArena};

use diagnostic_filter::DiagnosticFilterNode;
use serde::Serialize;

/// Bytes of the source.
#[derive(Clone, Copy, Debug, Default, PartialEq, Eq)]
pub struct Span {
    start: u32,
    end: u32,
}

impl Span {
    pub const UNDEFINED: Span = Span { start: 0, end: 0 };

    pub const fn new(start: u32, end: u32) -> Span {
        Span { start, end }
    }

    pub fn is_defined(&self) -> bool {
        *self != Span::UNDEFINED
    }
}

#[derive(Clone, Copy, Debug, PartialEq, Eq, Hash, Serialize)]
pub enum ScalarKind {
    Sint,
    Uint,
    Float,
    Bool,
}

#[derive(Clone, Copy, Debug, PartialEq, Eq, Hash, Serialize)]
pub struct Scalar {
    pub kind: ScalarKind,
    pub width: u8,
}

impl Scalar {
    pub const I32: Scalar = Scalar {
        kind: ScalarKind::Sint,
        width: 4,
    };
    pub const F32: Scalar = Scalar {
        kind: ScalarKind::Float,
        width: 4,
    };
}

#[derive(Clone, Copy, Debug, PartialEq, Eq, Hash, Serialize)]
pub enum VectorSize {
    Bi = 2,
    Tri = 3,
    Quad = 4,
}

#[derive(Clone, Copy, Debug, PartialEq, Eq, Hash, Serialize)]
pub enum AddressSpace {
    Function,
    Private,
}

#[derive(Clone, Debug, PartialEq, Eq, Hash, Serialize)]
pub struct StructMember {
    pub name: Option<String>,
    pub ty: Handle<Type>,
    pub binding: Option<Binding>,
    pub offset: u32,
}

#[derive(Clone, Debug, PartialEq, Eq, Hash, Serialize)]
pub enum TypeInner {
    Scalar(Scalar),
    Vector {
        size: VectorSize,
        scalar: Scalar,
    },
    Pointer {
        base: Handle<Type>,
        space: AddressSpace,
    },
    Struct {
        members: Vec<StructMember>,
        span: u32,
    },
}

#[derive(Clone, Debug, PartialEq, Eq, Hash, Serialize)]
pub struct Type {
    pub name: Option<String>,
    pub inner: TypeInner,
}

#[derive(Clone, Copy, Debug, PartialEq, Eq, Hash, Serialize)]
pub enum BuiltIn {
    VertexIndex,
}

#[derive(Clone, Debug, PartialEq, Eq, Hash, Serialize)]
pub enum Binding {
    BuiltIn(BuiltIn),
    Location {
        location: u32,
        interpolation: Option<()>,
        sampling: Option<()>,
        blend_src: Option<u32>,
        per_primitive: bool,
    },
}

#[derive(Clone, Copy, Debug, PartialEq, Serialize)]
pub enum Literal {
    F32(f32),
    I32(i32),
}

#[derive(Clone, Copy, Debug, PartialEq, Eq, Hash, Serialize)]
pub enum UnaryOperator {
    Negate,
}

#[derive(Clone, Copy, Debug, PartialEq, Eq, Hash, Serialize)]
pub enum BinaryOperator {
    Add,
}

#[derive(Clone, Copy, Debug, PartialEq, Eq, Hash, Serialize)]
pub enum MathFunction {
    Modf,
}

#[derive(Clone, Debug, PartialEq, Serialize)]
pub enum Expression {
    Literal(Literal),
    FunctionArgument(u32),
    LocalVariable(Handle<LocalVariable>),
    Load {
        pointer: Handle<Expression>,
    },
    AccessIndex {
        base: Handle<Expression>,
        index: u32,
    },
    Unary {
        op: UnaryOperator,
        expr: Handle<Expression>,
    },
    Binary {
        op: BinaryOperator,
        left: Handle<Expression>,
        right: Handle<Expression>,
    },
    Math {
        fun: MathFunction,
        arg: Handle<Expression>,
        arg1: Option<Handle<Expression>>,
        arg2: Option<Handle<Expression>>,
        arg3: Option<Handle<Expression>>,
    },
}

#[derive(Clone, Debug, PartialEq, Serialize)]
pub enum Statement {
    Emit(Range<Expression>),
    Block(Block),
    If {
        condition: Handle<Expression>,
        accept: Block,
        reject: Block,
    },
    Switch {
        selector: Handle<Expression>,
        cases: Vec<SwitchCase>,
    },
    Loop {
        body: Block,
        continuing: Block,
        break_if: Option<Handle<Expression>>,
    },
    Store {
        pointer: Handle<Expression>,
        value: Handle<Expression>,
    },
    Return {
        value: Option<Handle<Expression>>,
    },
}

#[derive(Clone, Copy, Debug, PartialEq, Eq, Serialize)]
pub enum SwitchValue {
    I32(i32),
    Default,
}

#[derive(Clone, Debug, PartialEq, Serialize)]
pub struct SwitchCase {
    pub value: SwitchValue,
    pub body: Block,
    pub fall_through: bool,
}

#[derive(Clone, Debug, Default, PartialEq, Serialize)]
#[serde(transparent)]
pub struct Block {
    body: Vec<Statement>,
    #[serde(skip)]
    spans: Vec<Span>,
}

impl Block {
    pub fn from_vec(body: Vec<Statement>) -> Block {
        let spans = vec![Span::UNDEFINED; body.len()];
        Block { body, spans }
    }

    pub fn push(&mut self, end: Statement, span: Span) {
        self.body.push(end);
        self.spans.push(span);
    }

    pub fn span_iter(&self) -> impl Iterator<Item = (&Statement, &Span)> {
        self.body.iter().zip(&self.spans)
    }
}

#[derive(Clone, Debug, Serialize)]
pub struct FunctionArgument {
    pub name: Option<String>,
    pub ty: Handle<Type>,
    pub binding: Option<Binding>,
}

#[derive(Clone, Debug, Serialize)]
pub struct FunctionResult {
    pub ty: Handle<Type>,
    pub binding: Option<Binding>,
}

#[derive(Clone, Debug, Serialize)]
pub struct LocalVariable {
    pub name: Option<String>,
    pub ty: Handle<Type>,
    pub init: Option<Handle<Expression>>,
}

#[derive(Debug, Default, Serialize)]
pub struct Function {
    pub name: Option<String>,
    pub arguments: Vec<FunctionArgument>,
    pub result: Option<FunctionResult>,
    pub local_variables: Arena<LocalVariable>,
    pub expressions: Arena<Expression>,
    pub named_expressions: FastIndexMap<Handle<Expression>, String>,
    pub body: Block,
    pub diagnostic_filter_leaf: Option<Handle<DiagnosticFilterNode>>,
}

#[derive(Clone, Copy, Debug, PartialEq, Eq, Hash, Serialize)]
pub enum ShaderStage {
    Vertex,
    Fragment,
    Compute,
}

#[derive(Clone, Copy, Debug, PartialEq, Eq, Hash, Serialize)]
pub enum EarlyDepthTest {
    Force,
}

#[derive(Debug, Serialize)]
pub struct EntryPoint {
    pub name: String,
    pub stage: ShaderStage,
    pub early_depth_test: Option<EarlyDepthTest>,
    pub workgroup_size: [u32; 3],
    pub workgroup_size_overrides: Option<[Option<Handle<Expression>>; 3]>,
    pub function: Function,
    pub mesh_info: Option<()>,
    pub task_payload: Option<Handle<()>>,
    pub incoming_ray_payload: Option<Handle<()>>,
}

#[derive(Clone, Debug, Serialize)]
pub struct Constant {
    pub name: Option<String>,
    pub ty: Handle<Type>,
    pub init: Handle<Expression>,
}

#[derive(Clone, Copy, Debug, PartialEq, Eq, Hash, Serialize)]
pub enum PredeclaredType {
    AtomicCompareExchangeWeakResult(Scalar),
    ModfResult {
        size: Option<VectorSize>,
        scalar: Scalar,
    },
    FrexpResult {
        size: Option<VectorSize>,
        scalar: Scalar,
    },
}

#[derive(Debug, Default, Serialize)]
pub struct SpecialTypes {
    pub ray_desc: Option<Handle<Type>>,
    pub ray_intersection: Option<Handle<Type>>,
    pub ray_vertex_return: Option<Handle<Type>>,
    pub external_texture_params: Option<Handle<Type>>,
    pub external_texture_transfer_function: Option<Handle<Type>>,
    pub predeclared_types: FastIndexMap<PredeclaredType, Handle<Type>>,
}

#[derive(Debug, Default, Serialize)]
pub struct Module {
    pub types: UniqueArena<Type>,
    pub special_types: SpecialTypes,
    pub constants: Arena<Constant>,
    pub overrides: Arena<()>,
    pub global_variables: Arena<()>,
    pub global_expressions: Arena<Expression>,
    pub functions: Arena<Function>,
    pub entry_points: Vec<EntryPoint>,
    pub diagnostic_filters: Arena<DiagnosticFilterNode>,
    pub diagnostic_filter_leaf: Option<Handle<DiagnosticFilterNode>>,
    pub doc_comments: Option<Box<()>>,
}

impl Module {
    /// The struct that `modf` of such a value gives, which is told among the special types.
    pub fn generate_predeclared_type(&mut self, which: PredeclaredType) -> Handle<Type> {
        let PredeclaredType::ModfResult { size: None, scalar } = which else {
            unimplemented!("the stand-in has modf of scalars alone");
        };
        let ty = self.types.insert(
            Type {
                name: None,
                inner: TypeInner::Scalar(scalar),
            },
            Span::UNDEFINED,
        );
        let member = |name: &str, offset| StructMember {
            name: Some(name.into()),
            ty,
            binding: None,
            offset,
        };
        let members = vec![member("fract", 0), member("whole", 4)];
        let result = self.types.insert(
            Type {
                name: Some("__modf_result_f32".into()),
                inner: TypeInner::Struct { members, span: 8 },
            },
            Span::UNDEFINED,
        );
        self.special_types.predeclared_types.insert(which, result);
        result
    }
}
