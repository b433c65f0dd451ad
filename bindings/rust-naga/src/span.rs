//! Where in the source stands what an error tells.

use naga::{Block, Function, Module, Span, Statement};
use yorwethul::{Item, Part, Position};

/// The span of what a position tells, if the module has one for it: of a part of a function that of the part; else that
/// of the statement; else that of the item.
pub fn span_of(module: &Module, position: Position) -> Option<Span> {
    let span = match position.item {
        Item::Type(index) => {
            let (handle, _) = module.types.iter().nth(index)?;
            module.types.get_span(handle)
        }
        Item::Constant(index) => {
            let (handle, _) = module.constants.iter().nth(index)?;
            module.constants.get_span(handle)
        }
        Item::Override(index) => {
            let (handle, _) = module.overrides.iter().nth(index)?;
            module.overrides.get_span(handle)
        }
        Item::GlobalVariable(index) => {
            let (handle, _) = module.global_variables.iter().nth(index)?;
            module.global_variables.get_span(handle)
        }
        Item::GlobalExpression(index) => {
            let (handle, _) = module.global_expressions.iter().nth(index)?;
            module.global_expressions.get_span(handle)
        }
        Item::Function(index) => {
            let (handle, function) = module.functions.iter().nth(index)?;
            span_in(function, position).unwrap_or(module.functions.get_span(handle))
        }
        Item::EntryPoint(index) => span_in(&module.entry_points.get(index)?.function, position)?,
        Item::DiagnosticFilter(index) => {
            let (handle, _) = module.diagnostic_filters.iter().nth(index)?;
            module.diagnostic_filters.get_span(handle)
        }
        _ => return None,
    };
    Some(span).filter(Span::is_defined)
}

/// The span of a part or a statement of a function, where there is a defined one.
fn span_in(function: &Function, position: Position) -> Option<Span> {
    let part = match position.part {
        Some(Part::Expression(index)) => {
            let expression = function.expressions.iter().nth(index);
            expression.map(|(handle, _)| function.expressions.get_span(handle))
        }
        Some(Part::LocalVariable(index)) => {
            let local = function.local_variables.iter().nth(index);
            local.map(|(handle, _)| function.local_variables.get_span(handle))
        }
        _ => None,
    };
    let statement = || statement_span(&function.body, &mut position.statement?);
    part.filter(Span::is_defined)
        .or_else(statement)
        .filter(Span::is_defined)
}

/// The span of the statement that so many stand in front of, counted as positions have it: those in blocks too, each after
/// the one that holds the block. Where there are no more than that in the block, their number is taken off.
fn statement_span(block: &Block, before: &mut usize) -> Option<Span> {
    for (statement, span) in block.span_iter() {
        if *before == 0 {
            return Some(*span);
        }
        *before -= 1;
        let mut inside = |block| statement_span(block, before);
        let found = match statement {
            Statement::Block(block) => inside(block),
            Statement::If { accept, reject, .. } => inside(accept).or_else(|| inside(reject)),
            Statement::Switch { cases, .. } => cases.iter().find_map(|case| inside(&case.body)),
            Statement::Loop {
                body, continuing, ..
            } => inside(body).or_else(|| inside(continuing)),
            _ => None,
        };
        if found.is_some() {
            return found;
        }
    }
    None
}

#[cfg(test)]
mod tests {
    use super::statement_span;
    use naga::{Block, Span, Statement};

    fn block(statements: Vec<(Statement, u32)>) -> Block {
        let mut block = Block::default();
        for (statement, number) in statements {
            block.push(statement, Span::new(number, number + 1));
        }
        block
    }

    /// Each statement of a body with blocks in blocks is found by its number, which is where its span begins.
    #[test]
    fn statements_are_counted_through_their_blocks() {
        let leaf = || Statement::Return { value: None };
        let body = block(vec![
            (leaf(), 4),
            (Statement::Block(block(vec![(leaf(), 6)])), 5),
        ]);
        let continuing = block(vec![(leaf(), 7)]);
        let looped = Statement::Loop {
            body,
            continuing,
            break_if: None,
        };
        let inner = block(vec![(leaf(), 2), (looped, 3)]);
        let whole = block(vec![
            (leaf(), 0),
            (Statement::Block(inner), 1),
            (Statement::Block(Block::default()), 8),
            (leaf(), 9),
        ]);
        for number in 0..10u32 {
            let found = statement_span(&whole, &mut (number as usize));
            assert_eq!(found, Some(Span::new(number, number + 1)), "{number}");
        }
        let mut past = 12;
        assert_eq!((statement_span(&whole, &mut past), past), (None, 2));
    }
}
