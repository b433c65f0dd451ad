use core::fmt;

/// What kind of construct a module is refused for. `docs/REFUSALS.md` in Yorwethul's repository says of each where it
/// stands and what to do.
#[derive(Clone, Copy, Debug, PartialEq, Eq, Hash)]
#[non_exhaustive]
pub enum Construct {
    /// A literal of a float: an infinity or a NaN, or any without [`crate::Flags::DECIMAL_FLOATS`].
    FloatLiteral,
    /// A literal of an abstract type.
    AbstractLiteral,
    /// A function of mathematics that WGSL has no word for, as `Inverse`.
    MathFunction,
    /// A function that tests a number, which WGSL lacks, as `IsNan`.
    RelationalFunction,
    /// A scalar that WGSL has no word for.
    ScalarType,
    /// A built-in value that WGSL has no word for.
    BuiltIn,
    /// A type that has no form for another reason than its scalars.
    OtherType,
    /// A struct that no text declares, or a member of one that no text can name.
    PredeclaredStruct,
    /// A conversion of what is no scalar, vector or matrix.
    Conversion,
    /// A step of a ray query, or what it found.
    RayQuery,
    /// A scan over a subgroup that WGSL has no word for.
    SubgroupOperation,
    /// A case of a `switch` with statements that falls through.
    FallThrough,
    /// A texel that is compared and exchanged.
    ImageCompareExchange,
    /// A way to sample an image that has no form.
    SamplingMethod,
    /// An operator, or what else is no constant, in an initialiser or in the offset of a sample.
    ConstantOperator,
    /// The load of an image with both a sample and a level.
    ImageLoad,
    /// A part at a known index of what has no parts.
    Index,
    /// An operand out of scope, or what may not be given where it is.
    OutOfScope,
    /// An entry point without the payload or the mesh output of its stage.
    StageVariable,
    /// A member at an offset that is no multiple of its alignment, or a first one that is not at 0.
    OffAlignment,
    /// A member that begins before the end of the one before it.
    Overlap,
    /// An array of another stride than WGSL gives it.
    ArrayStride,
    /// A label that gets no name, since so many are like it.
    FullNamer,
    /// A member, an argument or an entry point after the last that can be told.
    NameKey,
    /// A filter of diagnostics whose rule has a name that is none in WGSL, with [`crate::Flags::PORTABLE`].
    DiagnosticRule,
}

/// The words of each kind. Those of the first four are followed by a value: `Unsupported math function: Inverse`.
const WORDS: [(&str, Construct); 25] = [
    ("Unsupported math function", Construct::MathFunction),
    (
        "Unsupported relational function",
        Construct::RelationalFunction,
    ),
    ("Unsupported scalar type", Construct::ScalarType),
    ("Unsupported builtin value", Construct::BuiltIn),
    ("float literal", Construct::FloatLiteral),
    (
        "Abstract types should not appear in IR presented to backends",
        Construct::AbstractLiteral,
    ),
    ("type without a WGSL form", Construct::OtherType),
    ("predeclared struct", Construct::PredeclaredStruct),
    ("conversion of this type", Construct::Conversion),
    ("ray query", Construct::RayQuery),
    ("subgroup operation", Construct::SubgroupOperation),
    ("fall-through switch case block", Construct::FallThrough),
    ("image compare exchange", Construct::ImageCompareExchange),
    ("sampling form", Construct::SamplingMethod),
    ("operator in a constant", Construct::ConstantOperator),
    ("image load with sample and level", Construct::ImageLoad),
    ("cannot index", Construct::Index),
    ("operand out of scope", Construct::OutOfScope),
    ("missing payload or mesh output", Construct::StageVariable),
    ("member off its alignment", Construct::OffAlignment),
    ("members overlap", Construct::Overlap),
    ("array stride", Construct::ArrayStride),
    ("namer is full", Construct::FullNamer),
    ("name key out of range", Construct::NameKey),
    (
        "diagnostic rule without a WGSL name",
        Construct::DiagnosticRule,
    ),
];

impl Construct {
    /// The kind of a construct that is told by these words, as [`crate::Error::construct`] gives them.
    ///
    /// ```
    /// use yorwethul::Construct;
    /// assert_eq!(Construct::of("float literal"), Some(Construct::FloatLiteral));
    /// assert_eq!(Construct::of("Unsupported math function: Inverse"), Some(Construct::MathFunction));
    /// assert_eq!(Construct::of("a word of a later library"), None);
    /// ```
    pub fn of(words: &str) -> Option<Construct> {
        let kind = match words.split_once(": ") {
            Some((kind, _)) if kind.starts_with("Unsupported ") => kind,
            _ => words,
        };
        WORDS
            .iter()
            .find(|(known, _)| *known == kind)
            .map(|&(_, construct)| construct)
    }

    /// The words by which it is told, without what stands after a colon: `float literal`.
    pub fn words(self) -> &'static str {
        WORDS
            .iter()
            .find(|(_, construct)| *construct == self)
            .map_or("", |&(words, _)| words)
    }
}

impl fmt::Display for Construct {
    fn fmt(&self, f: &mut fmt::Formatter<'_>) -> fmt::Result {
        f.write_str(self.words())
    }
}
