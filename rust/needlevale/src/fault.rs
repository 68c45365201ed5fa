//! What is wrong with a table, and where.

use crate::refusal::Refusal;
use std::fmt;

/// A field of the table file. Sorts, literals, functions, rows and cells are counted from 0.
#[derive(Clone, Copy, PartialEq, Eq, Hash, Debug)]
#[allow(missing_docs)]
#[non_exhaustive]
pub enum Place {
    Version,
    SortCount,
    Kind { sort: usize },
    Classes { sort: usize },
    LiteralCount,
    Literal { literal: usize },
    FunctionCount,
    NameLength { function: usize },
    Name { function: usize },
    HasCost { function: usize },
    Cost { function: usize },
    Unextractable { function: usize },
    Hidden { function: usize },
    Output { function: usize },
    Arity { function: usize },
    Argument { function: usize, column: usize },
    RowCount,
    RowFunction { row: usize },
    Subsumed { row: usize },
    Cell { row: usize, column: usize },
    RowOutput { row: usize },
    Padding,
}

impl fmt::Display for Place {
    fn fmt(&self, out: &mut fmt::Formatter) -> fmt::Result {
        use Place::*;
        match self {
            Version => write!(out, "version"),
            SortCount => write!(out, "sort count"),
            Kind { sort } => write!(out, "sort {sort}, kind"),
            Classes { sort } => write!(out, "sort {sort}, class count"),
            LiteralCount => write!(out, "literal count"),
            Literal { literal } => write!(out, "literal {literal}"),
            FunctionCount => write!(out, "function count"),
            NameLength { function } => write!(out, "function {function}, name length"),
            Name { function } => write!(out, "function {function}, name"),
            HasCost { function } => write!(out, "function {function}, has-cost"),
            Cost { function } => write!(out, "function {function}, cost"),
            Unextractable { function } => write!(out, "function {function}, unextractable"),
            Hidden { function } => write!(out, "function {function}, hidden"),
            Output { function } => write!(out, "function {function}, output sort"),
            Arity { function } => write!(out, "function {function}, arity"),
            Argument { function, column } => write!(out, "function {function}, argument sort {column}"),
            RowCount => write!(out, "row count"),
            RowFunction { row } => write!(out, "row {row}, function"),
            Subsumed { row } => write!(out, "row {row}, subsumed"),
            Cell { row, column } => write!(out, "row {row}, cell {column}"),
            RowOutput { row } => write!(out, "row {row}, output cell"),
            Padding => write!(out, "after the last row"),
        }
    }
}

/// The first fault of a table: the refusal, the field, its bit, its value, and a sentence.
///
/// The refusal is computed here. Of a file, the proved reader's own is [`crate::verdict`]'s; the two are held to each
/// other by the tests.
#[derive(Clone, PartialEq, Eq, Debug)]
pub struct Fault {
    /// Document 01's refusal; none where no file can hold the draft, such as one of 600 literals.
    pub refusal: Option<Refusal>,
    /// The field.
    pub place: Place,
    /// The bit of the table file at which the field begins, from 0.
    pub bit: usize,
    /// The field's value, where it was read and is a number.
    pub value: Option<u64>,
    /// What is wrong with it.
    pub what: String,
}

impl fmt::Display for Fault {
    fn fmt(&self, out: &mut fmt::Formatter) -> fmt::Result {
        write!(out, "{}: {} (bit {})", self.place, self.what, self.bit)
    }
}

impl std::error::Error for Fault {}

/// `1 class`, `2 classes`.
pub(crate) fn count(number: usize, one: &str, many: &str) -> String {
    format!("{number} {}", if number == 1 { one } else { many })
}
