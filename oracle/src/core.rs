//! The resolved calls that util.rs names; nothing here makes one.

use crate::sort::ArcSort;
use std::fmt::{self, Display, Formatter};

#[derive(Clone, Debug)]
pub struct FuncType {
    pub name: String,
    pub output: ArcSort,
}

impl FuncType {
    pub fn output(&self) -> &ArcSort {
        &self.output
    }
}

#[derive(Clone, Debug)]
pub enum ResolvedCall {
    Func(FuncType),
    Primitive(FuncType),
}

impl Display for ResolvedCall {
    fn fmt(&self, f: &mut Formatter) -> fmt::Result {
        let (ResolvedCall::Func(called) | ResolvedCall::Primitive(called)) = self;
        write!(f, "{}", called.name)
    }
}
