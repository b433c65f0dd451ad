//! Modules of naga are written. The calls are naga's own: the same tests run against naga 30 and
//! against the stand-in.

use naga::diagnostic_filter::{
    DiagnosticFilter, DiagnosticFilterNode, FilterableTriggeringRule, Severity,
};
use naga::valid::{Capabilities, ModuleInfo, ValidationFlags, Validator};
use naga::{
    BinaryOperator, Expression, Function, FunctionArgument, FunctionResult, Handle, Literal,
};
use naga::{LocalVariable, MathFunction, Module, PredeclaredType, Range, Scalar, Span, Statement};
use naga::{StructMember, Type, TypeInner, UnaryOperator};
use yorwethul_naga::{json, layout, layout_module, module_json, names, names_module};
use yorwethul_naga::{write, write_module, Construct, Error, Flags, Item};

const SPAN: Span = Span::UNDEFINED;

fn known(module: &Module) -> ModuleInfo {
    let mut validator = Validator::new(ValidationFlags::all(), Capabilities::all());
    validator.validate(module).unwrap()
}

fn scalar(module: &mut Module, scalar: Scalar) -> Handle<Type> {
    let inner = TypeInner::Scalar(scalar);
    module.types.insert(Type { name: None, inner }, SPAN)
}

/// A function of an argument of this type, which gives a value of it.
fn function(name: &str, ty: Handle<Type>) -> Function {
    Function {
        name: Some(name.into()),
        arguments: vec![FunctionArgument {
            name: Some("x".into()),
            ty,
            binding: None,
        }],
        result: Some(FunctionResult { ty, binding: None }),
        ..Function::default()
    }
}

fn returns(function: &mut Function, value: Handle<Expression>) {
    function
        .body
        .push(Statement::Return { value: Some(value) }, SPAN);
}

fn emits(function: &mut Function, first: Handle<Expression>, last: Handle<Expression>) {
    let range = Range::new_from_bounds(first, last);
    function.body.push(Statement::Emit(range), SPAN);
}

/// `fn double(x: i32) -> i32`, whose sum a front end named.
fn double() -> Module {
    let mut module = Module::default();
    let ty = scalar(&mut module, Scalar::I32);
    let mut double = function("double", ty);
    let x = double
        .expressions
        .append(Expression::FunctionArgument(0), SPAN);
    let sum = Expression::Binary {
        op: BinaryOperator::Add,
        left: x,
        right: x,
    };
    let sum = double.expressions.append(sum, SPAN);
    double.named_expressions.insert(sum, "sum".into());
    emits(&mut double, sum, sum);
    returns(&mut double, sum);
    module.functions.append(double, SPAN);
    module
}

#[test]
fn a_module_is_written() {
    let module = double();
    let info = known(&module);
    let text = "fn double(x: i32) -> i32 {\n    let sum = (x + x);\n    return sum;\n}\n\n";
    assert_eq!(write(&module, &info, Flags::empty()).as_deref(), Ok(text));
    let explicit = text.replace("let sum =", "let sum: i32 =");
    assert_eq!(write(&module, &info, Flags::EXPLICIT_TYPES), Ok(explicit));
    let told = json(&module, &info).unwrap();
    assert_eq!(yorwethul_naga::yorwethul::check_json(&told), Ok(()));
}

#[test]
fn a_module_alone_is_written() {
    let module = double();
    let flags = Flags::EXPLICIT_TYPES;
    assert_eq!(
        write_module(&module, flags),
        write(&module, &known(&module), flags)
    );
    assert_eq!(layout_module(&module, Flags::default()).as_deref(), Ok(""));
    let named = names(&module, &known(&module), flags).unwrap();
    assert!(named.contains("{\"handle\":0,\"identifier\":\"double\",\"label\":\"double\"}"));
    assert_eq!(names_module(&module, flags), Ok(named));
    let told = module_json(&module).unwrap();
    assert!(told.starts_with("{\"module\":{"), "{told}");
    assert!(!told.contains("\"info\""), "{told}");
    assert_eq!(yorwethul_naga::yorwethul::check_json(&told), Ok(()));
}

#[test]
fn an_empty_module_is_written() {
    let module = Module::default();
    assert_eq!(
        write(&module, &known(&module), Flags::empty()).as_deref(),
        Ok("")
    );
}

#[test]
fn predeclared_structs_are_told() {
    let mut module = Module::default();
    let ty = scalar(&mut module, Scalar::F32);
    let which = PredeclaredType::ModfResult {
        size: None,
        scalar: Scalar::F32,
    };
    module.generate_predeclared_type(which);
    let mut fraction = function("fraction", ty);
    let x = fraction
        .expressions
        .append(Expression::FunctionArgument(0), SPAN);
    let parts = Expression::Math {
        fun: MathFunction::Modf,
        arg: x,
        arg1: None,
        arg2: None,
        arg3: None,
    };
    let base = fraction.expressions.append(parts, SPAN);
    let part = fraction
        .expressions
        .append(Expression::AccessIndex { base, index: 0 }, SPAN);
    emits(&mut fraction, base, part);
    returns(&mut fraction, part);
    module.functions.append(fraction, SPAN);
    let text = write(&module, &known(&module), Flags::empty()).unwrap();
    assert_eq!(
        text,
        "fn fraction(x: f32) -> f32 {\n    return modf(x).fract;\n}\n\n"
    );
}

#[test]
fn locals_are_stored_and_loaded() {
    let mut module = Module::default();
    let ty = scalar(&mut module, Scalar::I32);
    let mut keep = function("keep", ty);
    let local = LocalVariable {
        name: Some("kept".into()),
        ty,
        init: None,
    };
    let local = keep.local_variables.append(local, SPAN);
    let value = keep
        .expressions
        .append(Expression::FunctionArgument(0), SPAN);
    let pointer = keep
        .expressions
        .append(Expression::LocalVariable(local), SPAN);
    let load = keep.expressions.append(Expression::Load { pointer }, SPAN);
    keep.body.push(Statement::Store { pointer, value }, SPAN);
    emits(&mut keep, load, load);
    returns(&mut keep, load);
    module.functions.append(keep, SPAN);
    let text = write(&module, &known(&module), Flags::empty()).unwrap();
    let lines = [
        "fn keep(x: i32) -> i32 {",
        "    var kept: i32;",
        "",
        "    kept = x;",
    ];
    let more = ["    let _e2 = kept;", "    return _e2;", "}", "", ""];
    assert_eq!(text, [&lines[..], &more[..]].concat().join("\n"));
}

#[test]
fn a_refusal_tells_the_construct_and_its_position() {
    let mut module = Module::default();
    let ty = scalar(&mut module, Scalar::F32);
    let mut half = function("half", ty);
    let literal = Expression::Literal(Literal::F32(0.5));
    let value = half.expressions.append(literal, Span::new(30, 33));
    returns(&mut half, value);
    module.functions.append(half, SPAN);
    let error = write(&module, &known(&module), Flags::empty()).unwrap_err();
    assert_eq!(error.construct(), Some("float literal"));
    let position = "module.functions[0].expressions[0], in statement 0";
    assert_eq!(error.position(), Some(position));
    assert_eq!((error.function(), error.root()), (Some("half"), None));
    assert_eq!(
        error.to_string(),
        format!("refused: float literal: {position}, in \"half\"")
    );
    let text = "fn half(x: f32) -> f32 {\n    return 0.5f;\n}\n\n";
    let told = write(&module, &known(&module), Flags::DECIMAL_FLOATS);
    assert_eq!(told.as_deref(), Ok(text));
    assert_eq!(error.construct_kind(), Some(Construct::FloatLiteral));
    assert_eq!(error.span(&module), Some(Span::new(30, 33)));
    fn is_an_error<E: std::error::Error + Send + Sync + 'static>(_: &E) {}
    is_an_error(&error);
}

#[test]
fn a_filter_without_a_name_is_refused_at_its_span() {
    let mut module = double();
    let filter = DiagnosticFilterNode {
        inner: DiagnosticFilter {
            new_severity: Severity::Off,
            triggering_rule: FilterableTriggeringRule::Unknown("no name".into()),
        },
        parent: None,
    };
    let filter = module.diagnostic_filters.append(filter, Span::new(3, 9));
    module.diagnostic_filter_leaf = Some(filter);
    assert!(write_module(&module, Flags::empty()).is_ok());
    let error = write_module(&module, Flags::PORTABLE).unwrap_err();
    assert_eq!(error.span(&module), Some(Span::new(3, 9)));
    let Error::Yorwethul(error) = error else {
        panic!("{error}")
    };
    assert_eq!(error.construct_kind(), Some(Construct::DiagnosticRule));
    assert_eq!(error.position(), Some("module.diagnostic_filters[0]"));
}

#[test]
fn an_info_of_another_module_is_not_accepted() {
    let mut module = double();
    let other = known(&module);
    let ty = scalar(&mut module, Scalar::F32);
    for (_, function) in module.functions.iter_mut() {
        function.result = Some(FunctionResult { ty, binding: None });
    }
    let error = write(&module, &other, Flags::empty()).unwrap_err();
    let Error::Yorwethul(error) = error else {
        panic!("{error}")
    };
    assert_eq!(error.position(), Some("module.functions[0], statement 1"));
    assert_eq!(error.function(), Some("double"));
    let place = error.place().unwrap();
    assert_eq!((place.item, place.statement), (Item::Function(0), Some(1)));
}

#[test]
fn layouts_are_told() {
    let mut module = Module::default();
    let ty = scalar(&mut module, Scalar::I32);
    let member = StructMember {
        name: Some("a".into()),
        ty,
        binding: None,
        offset: 0,
    };
    let inner = TypeInner::Struct {
        members: vec![member],
        span: 4,
    };
    module.types.insert(
        Type {
            name: Some("One".into()),
            inner,
        },
        SPAN,
    );
    let told = layout(&module, &known(&module), Flags::default()).unwrap();
    assert_eq!(
        told,
        "struct One: align 4, size 4\n    a: i32, offset 0, align 4, size 4\n"
    );
}

#[test]
fn deep_operands_take_a_thread() {
    let mut module = Module::default();
    let ty = scalar(&mut module, Scalar::I32);
    let mut deep = function("deep", ty);
    let first = deep
        .expressions
        .append(Expression::FunctionArgument(0), SPAN);
    let mut last = first;
    let depth = 3_999;
    for _ in 0..depth {
        let negated = Expression::Unary {
            op: UnaryOperator::Negate,
            expr: last,
        };
        last = deep.expressions.append(negated, SPAN);
    }
    let mut handles = deep.expressions.iter().skip(1).map(|(handle, _)| handle);
    let first = handles.next().unwrap();
    drop(handles);
    emits(&mut deep, first, last);
    returns(&mut deep, last);
    module.functions.append(deep, SPAN);
    let info = known(&module);
    let text = write(&module, &info, Flags::empty()).unwrap();
    assert_eq!(text.matches("-(").count(), depth);
    assert_eq!(layout(&module, &info, Flags::default()).as_deref(), Ok(""));
}

/// Stages, of which naga's own may have more fields.
#[cfg(naga_standin)]
mod stages {
    use super::*;
    use naga::{Binding, EarlyDepthTest, EntryPoint, ShaderStage};

    /// A stage of an argument that it gives.
    fn module() -> Module {
        let mut module = Module::default();
        let ty = scalar(&mut module, Scalar::I32);
        let mut stage = function("", ty);
        let location = Binding::Location {
            location: 0,
            interpolation: None,
            sampling: None,
            blend_src: None,
            per_primitive: false,
        };
        stage.name = None;
        stage.arguments[0].binding = Some(location.clone());
        stage.result = Some(FunctionResult {
            ty,
            binding: Some(location),
        });
        let x = stage
            .expressions
            .append(Expression::FunctionArgument(0), SPAN);
        returns(&mut stage, x);
        module.entry_points.push(EntryPoint {
            name: "main".into(),
            stage: ShaderStage::Fragment,
            early_depth_test: None,
            workgroup_size: [0; 3],
            workgroup_size_overrides: None,
            function: stage,
            mesh_info: None,
            task_payload: None,
            incoming_ray_payload: None,
        });
        module
    }

    #[test]
    fn they_are_written() {
        let module = module();
        let text = write(&module, &known(&module), Flags::empty()).unwrap();
        assert!(
            text.starts_with("@fragment \nfn main(@location(0) x: i32)"),
            "{text}"
        );
        assert!(text.ends_with("    return x;\n}\n"), "{text}");
    }

    #[test]
    fn what_no_text_tells_is_refused() {
        let mut module = module();
        module.entry_points[0].early_depth_test = Some(EarlyDepthTest::Force);
        let error = write(&module, &known(&module), Flags::empty()).unwrap_err();
        let Error::Yorwethul(error) = error else {
            panic!("{error}")
        };
        assert_eq!(
            error.position(),
            Some("module.entry_points[0].early_depth_test")
        );
    }
}
