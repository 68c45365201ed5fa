//! The crate's own extract.rs, termdag.rs and util.rs, compiled unchanged, over a stand-in for all that they lean on.
//!
//! The three files are read from `../shared` beside the repository; nothing of them is kept here. The stand-in gives
//! functions in file order and rows in row order, as document 01 asks.

// The crate names its syntax crate by this name; here it is this crate itself.
extern crate self as egglog_ast;

mod ast;
pub mod bare;
mod core;
pub mod egglog_bridge;
mod egraph;
pub mod faults;
pub mod modes;
pub mod program;
pub mod reader;
pub mod record;
pub mod smallest;
mod sort;
pub mod tally;
pub mod terms;

#[path = "../../../shared/docs/src/src/extract.rs"]
#[allow(clippy::all)]
#[rustfmt::skip]
pub mod extract;
#[path = "../../../shared/docs/src/src/termdag.rs"]
#[allow(clippy::all)]
#[rustfmt::skip]
pub mod termdag;
#[path = "../../../shared/docs/src/src/util.rs"]
#[allow(clippy::all)]
#[rustfmt::skip]
pub mod util;

pub use ast::{Expr, GenericExpr, Literal, Span, generic_ast_helpers};
pub use egraph::{EGraph, Enode, Error, Function, FunctionDecl, FunctionType, ProofState, TypeError};
pub use sort::{ArcSort, BaseSort, BaseValues, ContainerValues, EqSort, Sort, Value};
use std::fmt::Debug;
pub use termdag::{Term, TermDag, TermId};
use util::{HEntry, IndexSet};

/// The crate's macro for a place in the source; nothing here looks at it.
#[macro_export]
macro_rules! span {
    () => {
        $crate::Span
    };
}
