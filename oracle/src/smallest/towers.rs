//! All towers of one leaf and one function.

use paper::generate::make::{function, row};
use paper::table::{Query, Sort, Table, input};

/// A leaf, and one function applied level by level; the last row may name lower levels in some places.
pub struct Tower {
    pub leaf: usize,
    pub head: usize,
    pub arity: usize,
    pub levels: usize,
    /// How many places of the last level name the leaf.
    pub low: usize,
    pub free: bool,
    /// Whether one more level names the last one, so that it is shared and not the root.
    pub roof: bool,
}

impl Tower {
    fn table(&self) -> Table {
        let cost = self.free.then_some(0);
        let (leaf, head) = (vec![b'L'; self.leaf], vec![b'F'; self.head]);
        let functions = vec![function(&leaf, cost, &[], 0), function(&head, cost, &vec![0; self.arity], 0)];
        let top = self.levels + usize::from(self.roof);
        let mut rows = vec![row(0, &[0])];
        for level in 1..=top {
            let mut cells = vec![level - 1; self.arity];
            if level == self.levels {
                cells[self.arity - self.low..].fill(0);
            }
            cells.push(level);
            rows.push(row(1, &cells));
        }
        Table { sorts: vec![Sort::Eq(top as u64 + 1)], literals: vec![], functions, rows }
    }

    pub fn input(&self, mode: u64) -> Vec<u8> {
        input(&Query { mode, sort: 0, value: self.levels + usize::from(self.roof), n: 0 }, &self.table())
    }
}

/// The tower of the shortest file whose input is as `wanted`.
pub fn smallest_tower(
    towers: impl Iterator<Item = Tower>,
    mode: u64,
    wanted: impl Fn(&Tower, &[u8]) -> bool,
) -> Option<Tower> {
    let mut best: Option<(usize, Tower)> = None;
    for tower in towers {
        let input = tower.input(mode);
        if best.as_ref().is_none_or(|(bits, _)| tower.table().bits() < *bits) && wanted(&tower, &input) {
            best = Some((tower.table().bits(), tower));
        }
    }
    best.map(|(_, tower)| tower)
}

pub fn free_towers(roof: bool) -> impl Iterator<Item = Tower> {
    (1..=8).flat_map(move |arity| {
        (1..=70).flat_map(move |levels| {
            let tower = move |low| Tower { leaf: 1, head: 1, arity, levels, low, free: true, roof };
            (0..if roof { arity } else { 1 }).map(tower)
        })
    })
}
