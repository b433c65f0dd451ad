/// Where in a module something stands, as the text that [`crate::Error::position`] gives tells it.
#[derive(Clone, Copy, Debug, PartialEq, Eq, Hash)]
#[non_exhaustive]
pub struct Position {
    /// The item of the module.
    pub item: Item,
    /// What of a function or an entry point, or of its own lists, is told.
    pub part: Option<Part>,
    /// The number of the statement of this function or entry point that is told: that which uses, writes or gives
    /// what stands there, or that which is wrong itself. Statements count from 0 in the order of the text, also those
    /// in blocks, each after the one that holds the block.
    pub statement: Option<usize>,
}

/// An item of a module, with its handle.
#[derive(Clone, Copy, Debug, PartialEq, Eq, Hash)]
#[non_exhaustive]
pub enum Item {
    /// The module itself.
    Module,
    /// A type.
    Type(usize),
    /// A constant.
    Constant(usize),
    /// An override.
    Override(usize),
    /// A variable of the module.
    GlobalVariable(usize),
    /// One of the module's own expressions.
    GlobalExpression(usize),
    /// A function.
    Function(usize),
    /// An entry point.
    EntryPoint(usize),
    /// A filter of diagnostics.
    DiagnosticFilter(usize),
}

/// A part of a function or an entry point, with its handle or its number.
#[derive(Clone, Copy, Debug, PartialEq, Eq, Hash)]
#[non_exhaustive]
pub enum Part {
    /// An expression.
    Expression(usize),
    /// A local variable.
    LocalVariable(usize),
    /// An argument.
    Argument(usize),
    /// The result.
    Result,
}

impl Position {
    /// The position that a text tells, if it tells one of an item.
    ///
    /// ```
    /// use yorwethul::{Item, Part, Position};
    /// let position = Position::of("module.functions[2].expressions[7], in statement 4").unwrap();
    /// assert_eq!(position.item, Item::Function(2));
    /// assert_eq!(position.part, Some(Part::Expression(7)));
    /// assert_eq!(position.statement, Some(4));
    /// ```
    pub fn of(told: &str) -> Option<Position> {
        let (path, ending) = told.split_once(", ").unwrap_or((told, ""));
        if path == "module" {
            return Some(Position {
                item: Item::Module,
                part: None,
                statement: None,
            });
        }
        let (item, rest) = item(path.strip_prefix("module.").unwrap_or(path))?;
        let is_function = matches!(item, Item::Function(_) | Item::EntryPoint(_));
        Some(Position {
            item,
            part: if is_function {
                part(rest).or_else(|| first_value(ending))
            } else {
                None
            },
            statement: if is_function { statement(ending) } else { None },
        })
    }
}

/// The item that a path begins with, and the rest of the path.
fn item(path: &str) -> Option<(Item, &str)> {
    let kinds: [(&str, fn(usize) -> Item); 8] = [
        ("types", Item::Type),
        ("constants", Item::Constant),
        ("overrides", Item::Override),
        ("global_variables", Item::GlobalVariable),
        ("global_expressions", Item::GlobalExpression),
        ("functions", Item::Function),
        ("entry_points", Item::EntryPoint),
        ("diagnostic_filters", Item::DiagnosticFilter),
    ];
    kinds.iter().find_map(|(list, item)| {
        let (index, rest) = indexed(path, list)?;
        Some((item(index), rest))
    })
}

/// The part that the rest of a path tells, which for an entry point begins with its function.
fn part(rest: &str) -> Option<Part> {
    let rest = rest
        .strip_prefix(".function")
        .unwrap_or(rest)
        .strip_prefix('.')?;
    if rest == "result" {
        return Some(Part::Result);
    }
    let kinds: [(&str, fn(usize) -> Part); 3] = [
        ("expressions", Part::Expression),
        ("local_variables", Part::LocalVariable),
        ("arguments", Part::Argument),
    ];
    kinds
        .iter()
        .find_map(|(list, part)| Some(part(indexed(rest, list)?.0)))
}

/// The local whose first value an ending tells.
fn first_value(ending: &str) -> Option<Part> {
    let (local, _) = indexed(ending.strip_prefix("first value of ")?, "local_variables")?;
    Some(Part::LocalVariable(local))
}

/// The number of the statement that an ending tells: `operand value of statement 12`.
fn statement(ending: &str) -> Option<usize> {
    let (_, number) = ending.rsplit_once("statement ")?;
    number.parse().ok()
}

/// The index after a list's name, and what follows it: of `types[5].x` 5 and `.x`.
fn indexed<'a>(path: &'a str, list: &str) -> Option<(usize, &'a str)> {
    let (index, rest) = path
        .strip_prefix(list)?
        .strip_prefix('[')?
        .split_once(']')?;
    Some((index.parse().ok()?, rest))
}
