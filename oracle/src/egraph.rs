//! The stand-in for the e-graph: functions in file order over the backend's rows.

use crate::ast::FunctionSubtype;
use crate::egglog_bridge::{self, FunctionId};
use crate::util::{HashMap, IndexMap};
use crate::{ArcSort, Span, Value};

#[derive(Debug)]
pub struct FunctionDecl {
    pub name: String,
    pub subtype: FunctionSubtype,
    pub cost: Option<u64>,
    pub unextractable: bool,
    pub internal_hidden: bool,
    pub term_constructor: Option<String>,
}

#[derive(Debug)]
pub struct FunctionType {
    pub input: Vec<ArcSort>,
    pub output: ArcSort,
}

#[derive(Debug)]
pub struct Function {
    pub decl: FunctionDecl,
    pub func_type: FunctionType,
    pub backend_id: FunctionId,
}

impl FunctionDecl {
    /// A constructor, as every function of a table file is.
    pub fn constructor(name: String, cost: Option<u64>, unextractable: bool, internal_hidden: bool) -> Self {
        let subtype = FunctionSubtype::Constructor;
        FunctionDecl { name, subtype, cost, unextractable, internal_hidden, term_constructor: None }
    }
}

/// No sort has a union-find table of its own.
#[derive(Default)]
pub struct ProofState {
    pub uf_parent: HashMap<String, String>,
}

#[derive(Default)]
pub struct EGraph {
    pub sorts: Vec<ArcSort>,
    pub functions: IndexMap<String, Function>,
    pub backend: egglog_bridge::EGraph,
    pub proof_state: ProofState,
}

impl EGraph {
    /// The sort of a table file by its number; its name holds its number, so two sorts never share one.
    pub fn sort(&self, number: usize) -> &ArcSort {
        &self.sorts[number]
    }
}

/// A row as a cost model sees it.
pub struct Enode<'a> {
    pub children: &'a [Value],
    pub eclass: Value,
    pub subsumed: bool,
}

#[derive(Debug)]
pub enum TypeError {
    UnboundFunction(String, Span),
}

#[derive(Debug)]
pub enum Error {
    ExtractError(String),
    TypeError(TypeError),
}

impl From<TypeError> for Error {
    fn from(error: TypeError) -> Self {
        Error::TypeError(error)
    }
}
