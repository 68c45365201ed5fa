//! The stand-in for the backend: rows in row order, and a count of the scans of each function from outside the Rust.

use crate::{BaseValues, ContainerValues, Value};
use std::cell::RefCell;

/// A row as the crate's scans hand it out.
pub struct ScanEntry<'a> {
    pub vals: &'a [Value],
    pub subsumed: bool,
}

pub struct Row {
    pub vals: Vec<Value>,
    pub subsumed: bool,
}

/// A function's number in file order.
#[derive(Clone, Copy, Debug)]
pub struct FunctionId(pub usize);

#[derive(Default)]
pub struct EGraph {
    /// The rows of each function, in row order.
    pub rows: Vec<Vec<Row>>,
    pub base_values: BaseValues,
    pub container_values: ContainerValues,
    /// How often each function's rows were scanned.
    scans: RefCell<Vec<usize>>,
}

impl EGraph {
    pub fn for_each(&self, table: FunctionId, mut f: impl FnMut(ScanEntry<'_>)) {
        self.for_each_while(table, |row| {
            f(row);
            true
        });
    }

    pub fn for_each_while(&self, table: FunctionId, mut f: impl FnMut(ScanEntry<'_>) -> bool) {
        self.count(table);
        for row in &self.rows[table.0] {
            if !f(ScanEntry { vals: &row.vals, subsumed: row.subsumed }) {
                return;
            }
        }
    }

    fn count(&self, table: FunctionId) {
        let mut scans = self.scans.borrow_mut();
        scans.resize(self.rows.len(), 0);
        scans[table.0] += 1;
    }

    /// The passes that pricing made, told by its scans alone: every reached function is scanned once a pass and once
    /// more for the edges. With no reached function there is the one changeless pass.
    pub fn passes(&self) -> usize {
        let scans = self.scans.borrow();
        let reached: Vec<usize> = scans.iter().copied().filter(|s| *s > 0).collect();
        assert!(reached.iter().all(|s| *s == reached[0]), "the functions were not scanned equally often");
        reached.first().map_or(1, |scans| scans - 1)
    }

    pub fn base_values(&self) -> &BaseValues {
        &self.base_values
    }

    pub fn container_values(&self) -> &ContainerValues {
        &self.container_values
    }
}
