//! What Yorwethul is told: a module, and of its info, where one is given, the types of expressions.

use naga::valid::{FunctionInfo, ModuleInfo};
use naga::{Function, Module};
use serde::ser::{Serialize, SerializeStruct, Serializer};

/// `{"module": .., "info": ..}`, or without an info `{"module": ..}`.
pub struct Known<'a>(pub &'a Module, pub Option<&'a ModuleInfo>);

impl Serialize for Known<'_> {
    fn serialize<S: Serializer>(&self, serializer: S) -> Result<S::Ok, S::Error> {
        let Known(module, info) = *self;
        let mut known = serializer.serialize_struct("Known", 1 + usize::from(info.is_some()))?;
        known.serialize_field("module", module)?;
        if let Some(info) = info {
            known.serialize_field("info", &Types(module, info))?;
        }
        known.end()
    }
}

/// The info, short: lists of types.
struct Types<'a>(&'a Module, &'a ModuleInfo);

impl Serialize for Types<'_> {
    fn serialize<S: Serializer>(&self, serializer: S) -> Result<S::Ok, S::Error> {
        let Types(module, info) = *self;
        let functions = List(|| {
            let functions = module.functions.iter();
            functions.map(|(handle, function)| TypesIn(function, &info[handle]))
        });
        let entry_points = List(|| {
            let entry_points = module.entry_points.iter().enumerate();
            entry_points.map(|(index, entry)| TypesIn(&entry.function, info.get_entry_point(index)))
        });
        let constants = List(|| {
            let constants = module.global_expressions.iter();
            constants.map(|(handle, _)| &info[handle])
        });
        let mut short = serializer.serialize_struct("ModuleInfo", 3)?;
        short.serialize_field("functions", &functions)?;
        short.serialize_field("entry_points", &entry_points)?;
        short.serialize_field("const_expression_types", &constants)?;
        short.end()
    }
}

/// The types of a function's expressions.
struct TypesIn<'a>(&'a Function, &'a FunctionInfo);

impl Serialize for TypesIn<'_> {
    fn serialize<S: Serializer>(&self, serializer: S) -> Result<S::Ok, S::Error> {
        let expressions = self.0.expressions.iter();
        serializer.collect_seq(expressions.map(|(handle, _)| &self.1[handle].ty))
    }
}

/// A list of what an iterator gives that is made anew each time.
struct List<F>(F);

impl<F: Fn() -> I, I: Iterator> Serialize for List<F>
where
    I::Item: Serialize,
{
    fn serialize<S: Serializer>(&self, serializer: S) -> Result<S::Ok, S::Error> {
        serializer.collect_seq((self.0)())
    }
}
