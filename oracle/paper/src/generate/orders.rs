//! Scripts of request 3: comparisons and sorts of terms that are alike for long and differ late.
//!
//! The stores are laid out by hand, since each call of a script would check them again.

use super::make;
use super::rng::Rng;
use crate::script::{Op, Script};
use crate::store::{APP, LITERAL, MOST_CHILDREN, MOST_TERMS, Name, Record, Store, VARIABLE};

/// How many comparisons and sorts a script has.
pub const PAIRS: usize = 100;
pub const SORTS: usize = 10;

/// The script of an index; the four kinds come round in turn.
pub fn orders(seed: u64, index: usize) -> Script {
    let rng = &mut Rng::new(seed, index as u64);
    let laid = match index % 4 {
        0 => chains(rng),
        1 => late_children(rng),
        2 => counts(rng),
        _ => ties(rng),
    };
    let mut ops = Vec::new();
    for _ in 0..PAIRS {
        let (a, b) = laid.pair(rng);
        ops.push(Op::Compare(a, b));
    }
    for _ in 0..SORTS {
        let length = if rng.often(20) { rng.within(100, 400) } else { rng.below(40) };
        let mut list = Vec::new();
        while list.len() < length {
            let (a, b) = laid.pair(rng);
            list.extend([a, b]);
        }
        rng.shuffle(&mut list);
        ops.push(Op::Sort(list));
    }
    Script { store: laid.store, ops }
}

/// A well-formed store in the making, with pairs of its terms that are alike for long.
struct Laid {
    store: Store,
    pairs: Vec<(u64, u64)>,
}

impl Laid {
    fn new() -> Self {
        Laid { store: Store::new(MOST_TERMS, 128), pairs: Vec::new() }
    }

    fn full(&self) -> bool {
        self.store.term_count as usize >= MOST_TERMS - 2
    }

    fn symbol(&mut self, text: &[u8]) -> u64 {
        let name = Name::new(text);
        let count = self.store.name_count as usize;
        if let Some(at) = self.store.names[..count].iter().position(|n| *n == name) {
            return at as u64;
        }
        self.store.names[count] = name;
        self.store.name_count += 1;
        count as u64
    }

    fn put(&mut self, record: Record) -> u64 {
        let count = self.store.term_count as usize;
        if let Some(at) = self.store.records[..count].iter().position(|r| *r == record) {
            return at as u64;
        }
        self.store.records[count] = record;
        self.store.term_count += 1;
        count as u64
    }

    fn literal(&mut self, value: i64) -> u64 {
        self.put(Record { kind: LITERAL, literal: value, ..Record::default() })
    }

    fn variable(&mut self, text: &[u8]) -> u64 {
        let symbol = self.symbol(text);
        self.put(Record { kind: VARIABLE, symbol, ..Record::default() })
    }

    fn app(&mut self, text: &[u8], kids: &[u64]) -> u64 {
        let symbol = self.symbol(text);
        let mut record = Record { kind: APP, symbol, count: kids.len() as u64, ..Record::default() };
        record.kids[..kids.len()].copy_from_slice(kids);
        self.put(record)
    }

    /// Two different leaves, of one kind or of two.
    fn leaves(&mut self, rng: &mut Rng) -> (u64, u64) {
        let value = make::literal(rng);
        match rng.below(6) {
            0 => (self.literal(value), self.literal(value.wrapping_neg().wrapping_sub(1))),
            1 => (self.literal(value), self.literal(value ^ 1)),
            2 => (self.variable(b"x"), self.variable(b"y")),
            3 => (self.variable(b"x"), self.variable(b"xx")),
            4 => (self.literal(value), self.variable(b"x")),
            _ => (self.app(b"c", &[]), self.app(b"d", &[])),
        }
    }

    /// A pair that is alike for long, or any; in either order, now and then a term with itself.
    fn pair(&self, rng: &mut Rng) -> (u64, u64) {
        let count = (self.store.term_count as usize).max(1);
        let (a, b) = if !self.pairs.is_empty() && rng.often(70) {
            self.pairs[rng.below(self.pairs.len())]
        } else {
            (rng.below(count) as u64, rng.below(count) as u64)
        };
        match rng.below(20) {
            0 => (a, a),
            1..=9 => (b, a),
            _ => (a, b),
        }
    }
}

/// Two chains of the same names over different leaves: the deepest store has 511 steps of each.
fn chains(rng: &mut Rng) -> Laid {
    let mut laid = Laid::new();
    let (mut a, mut b) = laid.leaves(rng);
    laid.pairs.push((a, b));
    let steps = if rng.often(30) { 600 } else { rng.within(1, 120) };
    for _ in 0..steps {
        if laid.full() {
            break;
        }
        let name: &[u8] = rng.pick(&[b"f", b"g"]);
        (a, b) = (laid.app(name, &[a]), laid.app(name, &[b]));
        laid.pairs.push((a, b));
    }
    // The last pairs are compared more often: only there is the way long.
    let last = laid.pairs[laid.pairs.len().saturating_sub(4)..].to_vec();
    for _ in 0..laid.pairs.len() / 8 {
        laid.pairs.extend(&last);
    }
    laid
}

/// Applications that share all children but a late one, which differs in the same way further down.
fn late_children(rng: &mut Rng) -> Laid {
    let mut laid = Laid::new();
    let (mut a, mut b) = laid.leaves(rng);
    let mut shared = vec![a, b];
    for _ in 0..rng.within(1, 60) {
        let before = rng.below(MOST_CHILDREN);
        let after = rng.below(MOST_CHILDREN - before);
        let pick = |rng: &mut Rng, n: usize| (0..n).map(|_| shared[rng.below(shared.len())]).collect::<Vec<u64>>();
        let (front, back) = (pick(rng, before), pick(rng, after));
        // What follows the differing child may differ the other way: it does not count.
        let turned: Vec<u64> = if rng.often(50) { back.iter().rev().copied().collect() } else { back.clone() };
        let name: &[u8] = rng.pick(&[b"f", b"g", b"h"]);
        (a, b) = (
            laid.app(name, &[front.clone(), vec![a], back].concat()),
            laid.app(name, &[front, vec![b], turned].concat()),
        );
        laid.pairs.push((a, b));
        shared.extend([a, b]);
        if laid.full() {
            break;
        }
    }
    laid
}

/// Equal heads over the same children, more of them or fewer, and wraps of these.
fn counts(rng: &mut Rng) -> Laid {
    let mut laid = Laid::new();
    let (a, b) = laid.leaves(rng);
    let kids: Vec<u64> = (0..MOST_CHILDREN).map(|_| if rng.often(50) { a } else { b }).collect();
    let mut row: Vec<u64> = (0..=MOST_CHILDREN).map(|n| laid.app(b"f", &kids[..n])).collect();
    for _ in 0..rng.within(1, 12) {
        for at in 1..row.len() {
            laid.pairs.push((row[at - 1], row[at]));
            laid.pairs.push((row[rng.below(row.len())], row[at]));
        }
        let name: &[u8] = rng.pick(&[b"f", b"g"]);
        let beside = rng.below(3);
        let side = rng.pick(&[a, b]);
        row = row.iter().map(|t| laid.app(name, &[vec![side; beside], vec![*t]].concat())).collect();
    }
    laid
}

/// Many terms over two names and few leaves, so that most heads and first children are equal.
fn ties(rng: &mut Rng) -> Laid {
    let mut laid = Laid::new();
    let (a, b) = laid.leaves(rng);
    let mut known = vec![a, b];
    for _ in 0..rng.within(20, 300) {
        let name: &[u8] = rng.pick(&[b"f", b"f", b"g"]);
        let recent = known.len().min(rng.within(2, 12));
        let kids: Vec<u64> = (0..rng.within(1, 3)).map(|_| known[known.len() - 1 - rng.below(recent)]).collect();
        known.push(laid.app(name, &kids));
    }
    laid
}
