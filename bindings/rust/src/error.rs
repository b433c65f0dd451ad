use crate::{Construct, Position};
use alloc::string::String;
use core::fmt;

/// Why there is no text.
#[derive(Clone, Debug, PartialEq, Eq)]
#[non_exhaustive]
pub enum Error {
    /// The module is accepted, and has a construct, or a rule of a filter of diagnostics, that is not
    /// written.
    #[non_exhaustive]
    Refused {
        /// The construct: `float literal`.
        construct: String,
        /// Where it stands: `module.functions[0].expressions[3]`. It is empty where memory was
        /// refused to find it.
        position: String,
        /// The label of the function or the entry point there, where there is one.
        function: Option<String>,
        /// Why an operand that is out of scope there has no value:
        /// `expressions[12] has no value at statement 8; no statement gives it`.
        root: Option<String>,
    },
    /// The module is not accepted with what is known of it.
    #[non_exhaustive]
    NotAccepted {
        /// Where: `module.functions[0].expressions[3]`, or `module.functions[0], statement 3`.
        position: String,
        /// The label of the function or the entry point there, where there is one.
        function: Option<String>,
        /// What is wrong there, and what was expected:
        /// `the known type is another: the expression gives vec4<f32>, the info has f32`.
        fault: String,
    },
    /// The JSON holds no module.
    #[non_exhaustive]
    NoModule {
        /// Where: `module.functions[2].expressions[7].Binary.left`. It is empty where the text is
        /// no JSON, or is nothing like a module as a whole.
        position: String,
        /// Why: `no number`, or `no JSON at line 1, column 0`.
        problem: String,
    },
    /// Memory was refused.
    OutOfMemory,
    /// Lists and objects of the JSON nest more than 127 deep, or operands, types or blocks of the
    /// module more than 4,000.
    #[non_exhaustive]
    TooDeep {
        /// What does: `nested too deep: operands`.
        what: String,
    },
    /// The text would have more than 64 MiB.
    TooLong,
    /// No thread could be started.
    #[cfg(feature = "std")]
    Thread(std::io::ErrorKind),
    /// The archive that was linked gives a status that this crate does not know, or a text that is
    /// not UTF-8. It is of another version.
    Unknown(u32),
}

impl Error {
    /// The construct for which the module is refused.
    pub fn construct(&self) -> Option<&str> {
        match self {
            Error::Refused { construct, .. } => Some(construct),
            _ => None,
        }
    }

    /// What kind of construct that is, unless the archive is a later one that knows a further kind.
    pub fn construct_kind(&self) -> Option<Construct> {
        self.construct().and_then(Construct::of)
    }

    /// The item, the part of a function and the statement that [`Error::position`] tells, where it tells an item.
    pub fn place(&self) -> Option<Position> {
        self.position().and_then(Position::of)
    }

    /// The position in the JSON, where one is told.
    pub fn position(&self) -> Option<&str> {
        match self {
            Error::Refused { position, .. }
            | Error::NotAccepted { position, .. }
            | Error::NoModule { position, .. } => Some(position)
                .filter(|position| !position.is_empty())
                .map(String::as_str),
            _ => None,
        }
    }

    /// Why an operand that is out of scope at the position has no value, where that is told.
    pub fn root(&self) -> Option<&str> {
        match self {
            Error::Refused { root, .. } => root.as_deref(),
            _ => None,
        }
    }

    /// The label of the function or the entry point at the position, where there is one.
    pub fn function(&self) -> Option<&str> {
        match self {
            Error::Refused { function, .. } | Error::NotAccepted { function, .. } => {
                function.as_deref()
            }
            _ => None,
        }
    }
}

/// A label after its position: `, in "half"`.
struct InFunction<'a>(&'a Option<String>);

impl fmt::Display for InFunction<'_> {
    fn fmt(&self, f: &mut fmt::Formatter<'_>) -> fmt::Result {
        match self.0 {
            Some(label) => write!(f, ", in {label:?}"),
            None => Ok(()),
        }
    }
}

impl fmt::Display for Error {
    fn fmt(&self, f: &mut fmt::Formatter<'_>) -> fmt::Result {
        match self {
            Error::Refused {
                construct,
                position,
                ..
            } if position.is_empty() => {
                write!(f, "refused: {construct}")
            }
            Error::Refused {
                construct,
                position,
                function,
                root,
            } => {
                let label = InFunction(function);
                write!(f, "refused: {construct}: {position}{label}")?;
                match root {
                    Some(root) => write!(f, ": {root}"),
                    None => Ok(()),
                }
            }
            Error::NotAccepted {
                position,
                function,
                fault,
            } => {
                let label = InFunction(function);
                write!(f, "not accepted: {position}{label}: {fault}")
            }
            Error::NoModule { position, problem } if position.is_empty() => {
                write!(f, "no module: {problem}")
            }
            Error::NoModule { position, problem } => write!(f, "no module: {position}: {problem}"),
            Error::OutOfMemory => f.write_str("out of memory"),
            Error::TooDeep { what } => f.write_str(what),
            Error::TooLong => f.write_str("text too long"),
            #[cfg(feature = "std")]
            Error::Thread(kind) => write!(f, "no thread could be started: {kind}"),
            Error::Unknown(status) => {
                write!(f, "unknown answer of libyorwethul.a, status {status}")
            }
        }
    }
}

impl core::error::Error for Error {}

/// Why [`crate::write_json_to`] put no text, or not all of it, where it was to go.
#[derive(Clone, Debug, PartialEq, Eq)]
#[non_exhaustive]
pub enum WriteError {
    /// There is no text, and nothing was put there.
    NoText(Error),
    /// What takes the text failed; a beginning of it may stand there.
    Sink(fmt::Error),
}

impl From<Error> for WriteError {
    fn from(error: Error) -> WriteError {
        WriteError::NoText(error)
    }
}

impl From<fmt::Error> for WriteError {
    fn from(error: fmt::Error) -> WriteError {
        WriteError::Sink(error)
    }
}

impl fmt::Display for WriteError {
    fn fmt(&self, f: &mut fmt::Formatter<'_>) -> fmt::Result {
        match self {
            WriteError::NoText(error) => error.fmt(f),
            WriteError::Sink(error) => error.fmt(f),
        }
    }
}

impl core::error::Error for WriteError {
    fn source(&self) -> Option<&(dyn core::error::Error + 'static)> {
        match self {
            WriteError::NoText(error) => Some(error),
            WriteError::Sink(error) => Some(error),
        }
    }
}
