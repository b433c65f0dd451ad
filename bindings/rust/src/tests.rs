//! What is made of what a library gives, here by calls that stand for it.

use super::*;
use alloc::string::ToString;
use core::cell::Cell;

/// A call that gives this status and this text, as `yorwethul.h` says.
fn giving<'a>(status: u32, text: &'a [u8]) -> impl Fn(&mut [u8], &mut usize) -> u32 + 'a {
    move |out, needed| {
        *needed = text.len();
        if let Some(front) = out.get_mut(..text.len()) {
            front.copy_from_slice(text);
        }
        status
    }
}

fn told(status: u32, text: &str) -> Result<String, Error> {
    text_of(0, giving(status, text.as_bytes()))
}

#[test]
fn a_text_that_fits_takes_one_call() {
    let calls = Cell::new(0);
    let text = text_of(3000, |out, needed| {
        calls.set(calls.get() + 1);
        giving(sys::DONE, &[b'x'; 3000])(out, needed)
    });
    assert_eq!(text, Ok("x".repeat(3000)));
    assert_eq!(calls.get(), 1);
}

#[test]
fn a_longer_text_takes_two() {
    let calls = Cell::new(0);
    let text = text_of(3000, |out, needed| {
        calls.set(calls.get() + 1);
        giving(sys::DONE, &[b'x'; 3001])(out, needed)
    });
    assert_eq!(text, Ok("x".repeat(3001)));
    assert_eq!(calls.get(), 2);
}

#[test]
fn a_longer_error_takes_two() {
    let construct = "long ".repeat(100);
    assert_eq!(
        told(sys::REFUSED, &construct),
        Err(Error::Refused {
            construct,
            position: String::new(),
            function: None,
            root: None
        })
    );
}

#[test]
fn nothing_is_a_text() {
    assert_eq!(told(sys::DONE, ""), Ok(String::new()));
}

#[test]
fn each_status_is_told() {
    let statuses = [
        (1, "float literal", "refused: float literal"),
        (1, "a: b: module.x[0]", "refused: a: b: module.x[0]"),
        (
            2,
            "module.types[3]: bad",
            "not accepted: module.types[3]: bad",
        ),
        (
            1,
            "a: module.functions[0], in \"f\"",
            "refused: a: module.functions[0], in \"f\"",
        ),
        (
            2,
            "module.functions[0], in \"f\": bad",
            "not accepted: module.functions[0], in \"f\": bad",
        ),
        (
            1,
            "a: module.functions[0], in \"f\": no statement gives it",
            "refused: a: module.functions[0], in \"f\": no statement gives it",
        ),
        (
            1,
            "a: functions[0], in \"f\": no statement gives it",
            "refused: a: functions[0], in \"f\": no statement gives it",
        ),
        (3, "module: missing", "no module: module: missing"),
        (3, "not UTF-8", "no module: not UTF-8"),
        (4, "a bit", "unknown answer of libyorwethul.a, status 4"),
        (5, "", "out of memory"),
        (6, "nested too deep: types", "nested too deep: types"),
        (7, "long", "text too long"),
        (8, "?", "unknown answer of libyorwethul.a, status 8"),
    ];
    for (status, text, shown) in statuses {
        assert_eq!(told(status, text).unwrap_err().to_string(), shown);
    }
}

#[test]
fn a_position_is_apart_from_its_reason() {
    let error = told(
        sys::NOT_ACCEPTED,
        "module.functions[0], statement 3: no: such",
    )
    .unwrap_err();
    assert_eq!(error.position(), Some("module.functions[0], statement 3"));
    assert!(matches!(error, Error::NotAccepted { fault, .. } if fault == "no: such"));
    let error = told(sys::NO_MODULE, "no JSON at line 1, column 0").unwrap_err();
    assert_eq!(error.position(), None);
    assert_eq!(error.construct(), None);
    let error = told(sys::REFUSED, "float literal").unwrap_err();
    assert_eq!(error.construct(), Some("float literal"));
    assert_eq!(error.position(), None);
    let text = "Unsupported math function: Outer: module.functions[0].expressions[1]";
    let error = told(sys::REFUSED, text).unwrap_err();
    assert_eq!(error.construct(), Some("Unsupported math function: Outer"));
    assert_eq!(error.position(), Some("module.functions[0].expressions[1]"));
    for beginning in super::BEGINNINGS {
        let error = told(sys::REFUSED, &alloc::format!("a: b: {beginning}0]")).unwrap_err();
        assert_eq!(error.construct(), Some("a: b"));
        assert_eq!(error.position(), Some(&*alloc::format!("{beginning}0]")));
    }
}

#[test]
fn a_label_is_apart_from_its_position() {
    for label in [
        "half",
        "",
        "a: module",
        "\"\\",
        "', in \"x\": y",
        "\0\t\n\r\u{1b}\u{e9}\u{301}",
    ] {
        let error = told(
            sys::NOT_ACCEPTED,
            &alloc::format!("module.functions[0], statement 3, in {label:?}: no: such"),
        )
        .unwrap_err();
        assert_eq!(error.position(), Some("module.functions[0], statement 3"));
        assert_eq!(error.function(), Some(label));
        assert!(matches!(error, Error::NotAccepted { fault, .. } if fault == "no: such"));
        let at = "module.functions[0].expressions[3], in statement 1";
        let error = told(
            sys::REFUSED,
            &alloc::format!("float literal: {at}, in {label:?}"),
        )
        .unwrap_err();
        assert_eq!(error.construct(), Some("float literal"));
        assert_eq!(error.position(), Some(at));
        assert_eq!(error.function(), Some(label));
    }
    // a root after a label, and without one
    let at = "module.functions[0].expressions[3], operand value of statement 1";
    for label in [", in \"half\"", ""] {
        let text = alloc::format!("operand out of scope: {at}{label}: no statement gives it");
        let error = told(sys::REFUSED, &text).unwrap_err();
        assert_eq!(error.position(), Some(at));
        assert_eq!(error.root(), Some("no statement gives it"));
    }
    // a fault may name a label, but not so
    let error = told(sys::NOT_ACCEPTED, "module.types[3]: bad, in \"s\"").unwrap_err();
    assert_eq!(
        (error.position(), error.function()),
        (Some("module.types[3]"), None)
    );
}

#[test]
fn a_text_that_is_no_utf8_is_unknown() {
    assert_eq!(
        text_of(0, giving(sys::DONE, &[0xff])),
        Err(Error::Unknown(0))
    );
}

#[test]
fn memory_that_is_not_there_is_told() {
    assert_eq!(
        text_of(usize::MAX, giving(sys::DONE, b"")),
        Err(Error::OutOfMemory)
    );
    let call = |_: &mut [u8], needed: &mut usize| {
        *needed = usize::MAX;
        sys::DONE
    };
    assert_eq!(text_of(0, call), Err(Error::OutOfMemory));
}

#[cfg(feature = "std")]
#[test]
fn a_call_on_a_thread_gives_what_it_gives_here() {
    assert_eq!(on_thread("", || Ok(7)), Ok(7));
    let fails = || Err::<(), _>(Error::TooLong);
    assert_eq!(on_thread("", fails), Err(Error::TooLong));
    let name = on_thread("", || Ok(std::thread::current().name().map(String::from)));
    assert_eq!(name, Ok(Some("yorwethul".into())));
}

#[test]
fn an_error_goes_between_threads_and_into_a_box() {
    fn asks<T: Send + Sync + core::error::Error + 'static>() {}
    asks::<Error>();
}

#[test]
fn flags_are_bits() {
    let mut flags = Flags::empty();
    assert!(!flags.contains(Flags::EXPLICIT_TYPES) && flags.is_empty());
    flags |= Flags::EXPLICIT_TYPES;
    assert_eq!(flags | Flags::empty(), Flags::EXPLICIT_TYPES);
    assert_eq!((flags.bits(), flags.contains(Flags::empty())), (1, true));
    flags.insert(Flags::PORTABLE);
    assert_eq!((flags.bits(), flags.contains(Flags::PORTABLE)), (3, true));
    assert_eq!((flags | Flags::DECIMAL_FLOATS).bits(), 7);
    assert_eq!(Flags::all().bits(), 7);
    flags.remove(Flags::EXPLICIT_TYPES);
    assert_eq!(flags, Flags::PORTABLE);
    assert_eq!(Flags::default() & Flags::PORTABLE, Flags::PORTABLE);
    assert_eq!(Flags::default().bits(), 6);
    for bits in 0..16 {
        assert_eq!(
            Flags::from_bits(bits).map(Flags::bits),
            (bits < 8).then_some(bits)
        );
    }
    let shown = alloc::format!("{:?} {:?}", Flags::default(), Flags::empty());
    assert_eq!(shown, "Flags(PORTABLE | DECIMAL_FLOATS) Flags()");
}

#[test]
fn constructs_are_told_by_their_words() {
    let error = told(
        sys::REFUSED,
        "operand out of scope: functions[0].expressions[2]",
    )
    .unwrap_err();
    assert_eq!(error.construct_kind(), Some(Construct::OutOfScope));
    assert_eq!(Construct::OutOfScope.to_string(), "operand out of scope");
    let error = told(
        sys::REFUSED,
        "Unsupported builtin value: ViewIndex: module.types[3]",
    )
    .unwrap_err();
    assert_eq!(error.construct_kind(), Some(Construct::BuiltIn));
    let error = told(sys::REFUSED, "a new one: module.types[3]").unwrap_err();
    assert_eq!(
        (error.construct(), error.construct_kind()),
        (Some("a new one"), None)
    );
}

#[test]
fn positions_are_told_in_fields() {
    let function = Item::Function(2);
    let value = Some(Part::Expression(7));
    for (told, item, part, statement) in [
        ("module", Item::Module, None, None),
        ("module.types[5]", Item::Type(5), None, None),
        ("constants[0]", Item::Constant(0), None, None),
        ("module.overrides[1]", Item::Override(1), None, None),
        (
            "module.global_variables[9]",
            Item::GlobalVariable(9),
            None,
            None,
        ),
        (
            "module.global_expressions[9].Binary.left",
            Item::GlobalExpression(9),
            None,
            None,
        ),
        ("functions[2]", function, None, None),
        ("module.functions[2], statement 3", function, None, Some(3)),
        ("module.functions[2].expressions[7]", function, value, None),
        (
            "module.functions[2].expressions[7], in statement 4",
            function,
            value,
            Some(4),
        ),
        (
            "functions[2].expressions[7], operand value of statement 12",
            function,
            value,
            Some(12),
        ),
        (
            "functions[2].expressions[7], operand components[2] of expressions[42] in statement 12",
            function,
            value,
            Some(12),
        ),
        (
            "functions[2].expressions[7], first value of local_variables[1]",
            function,
            value,
            None,
        ),
        (
            "functions[2].expressions[7], given again by statement 3",
            function,
            value,
            Some(3),
        ),
        (
            "functions[2].expressions[7], which needs no Emit, in statement 4",
            function,
            value,
            Some(4),
        ),
        (
            "functions[2].expressions[7], in break if of statement 12",
            function,
            value,
            Some(12),
        ),
        (
            "functions[2].expressions[7], the type of its let in statement 2",
            function,
            value,
            Some(2),
        ),
        (
            "functions[2].expressions[7].Binary.left",
            function,
            value,
            None,
        ),
        (
            "module.functions[2].arguments[1]",
            function,
            Some(Part::Argument(1)),
            None,
        ),
        (
            "module.functions[2].result",
            function,
            Some(Part::Result),
            None,
        ),
        (
            "functions[2].local_variables[1]",
            function,
            Some(Part::LocalVariable(1)),
            None,
        ),
        (
            "module.entry_points[0].function.expressions[7], in statement 0",
            Item::EntryPoint(0),
            value,
            Some(0),
        ),
        ("module.entry_points[0]", Item::EntryPoint(0), None, None),
        (
            "diagnostic_filters[2]",
            Item::DiagnosticFilter(2),
            None,
            None,
        ),
    ] {
        let position = Position {
            item,
            part,
            statement,
        };
        assert_eq!(Position::of(told), Some(position), "{told}");
    }
    for told in [
        "",
        "info",
        "types",
        "types[]",
        "module.nothing[1]",
        "types[-1]",
    ] {
        assert_eq!(Position::of(told), None, "{told}");
    }
    let error = super::tests::told(sys::REFUSED, "float literal: module.types[3]").unwrap_err();
    assert_eq!(error.place().map(|place| place.item), Some(Item::Type(3)));
    let text = "diagnostic rule without a WGSL name: diagnostic_filters[2]";
    let error = super::tests::told(sys::REFUSED, text).unwrap_err();
    assert_eq!(error.construct_kind(), Some(Construct::DiagnosticRule));
    let item = error.place().map(|place| place.item);
    assert_eq!(item, Some(Item::DiagnosticFilter(2)));
}

#[test]
fn what_takes_a_text_may_fail() {
    struct Full;
    impl fmt::Write for Full {
        fn write_str(&mut self, _: &str) -> fmt::Result {
            Err(fmt::Error)
        }
    }
    let error = WriteError::from(Error::TooLong);
    assert_eq!(error.to_string(), "text too long");
    let put = (|| -> Result<(), WriteError> { Ok(fmt::Write::write_str(&mut Full, "")?) })();
    assert_eq!(put, Err(WriteError::Sink(fmt::Error)));
}
