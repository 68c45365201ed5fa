//! The pieces of the crate's syntax that termdag.rs, util.rs and extract.rs name.

use crate::sort::ArcSort;
use std::fmt::{self, Display, Formatter};

/// A literal: document 01's signed 64-bit integers. (The crate's own `Literal` is not in the text.)
#[derive(Clone, PartialEq, Eq, PartialOrd, Ord, Hash, Debug)]
pub enum Literal {
    Int(i64),
}

impl Display for Literal {
    fn fmt(&self, f: &mut Formatter) -> fmt::Result {
        let Literal::Int(value) = self;
        write!(f, "{value}")
    }
}

/// A place in the source.
#[derive(Clone, Debug)]
pub struct Span;

#[derive(Clone, Debug)]
pub enum GenericExpr<Head, Leaf> {
    Lit(Span, Literal),
    Var(Span, Leaf),
    Call(Span, Head, Vec<GenericExpr<Head, Leaf>>),
}

pub type Expr = GenericExpr<String, String>;

#[derive(Clone, Debug)]
pub struct ResolvedVar {
    pub name: String,
    pub sort: ArcSort,
    pub is_global_ref: bool,
}

/// Every function of a table file is a constructor.
#[derive(Clone, Copy, PartialEq, Eq, Debug)]
pub enum FunctionSubtype {
    Constructor,
}

pub mod generic_ast_helpers {
    pub const INTERNAL_SYMBOL_PREFIX: &str = "@";
}
