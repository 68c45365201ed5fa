//! Sorts and values: the split into eq and base sorts that src/sort/mod.rs makes, and no containers.

use crate::Literal;
use crate::termdag::{TermDag, TermId};
use std::fmt::Debug;
use std::sync::Arc;

/// A class number or a literal index.
#[derive(Clone, Copy, PartialEq, Eq, PartialOrd, Ord, Hash, Debug)]
pub struct Value(pub u32);

pub type ArcSort = Arc<dyn Sort>;

/// The literals of a table file, which all base sorts share.
#[derive(Default)]
pub struct BaseValues(pub Vec<i64>);

/// There are no containers.
#[derive(Default)]
pub struct ContainerValues;

pub trait Sort: Debug {
    fn name(&self) -> &str;

    fn is_eq_sort(&self) -> bool {
        false
    }

    fn is_container_sort(&self) -> bool {
        false
    }

    fn inner_sorts(&self) -> Vec<ArcSort> {
        unreachable!("{} is no container sort", self.name())
    }

    fn inner_values(&self, _: &ContainerValues, _: Value) -> Vec<(ArcSort, Value)> {
        unreachable!("{} is no container sort", self.name())
    }

    fn reconstruct_termdag_container(&self, _: &ContainerValues, _: Value, _: &mut TermDag, _: Vec<TermId>) -> TermId {
        unreachable!("{} is no container sort", self.name())
    }

    fn reconstruct_termdag_base(&self, _: &BaseValues, _: Value, _: &mut TermDag) -> TermId {
        unreachable!("{} is no base sort", self.name())
    }
}

#[derive(Debug)]
pub struct EqSort {
    pub name: String,
}

impl Sort for EqSort {
    fn name(&self) -> &str {
        &self.name
    }

    fn is_eq_sort(&self) -> bool {
        true
    }
}

#[derive(Debug)]
pub struct BaseSort {
    pub name: String,
}

impl Sort for BaseSort {
    fn name(&self) -> &str {
        &self.name
    }

    fn reconstruct_termdag_base(&self, values: &BaseValues, value: Value, termdag: &mut TermDag) -> TermId {
        termdag.lit(Literal::Int(values.0[value.0 as usize]))
    }
}
