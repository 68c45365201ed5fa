//! Scripts of calls on a term store, deterministic in a seed.

use super::make;
use super::rng::Rng;
use crate::script::{Answer, Op, Script, run};
use crate::store::{APP, LITERAL, Name, Record, Store, Term, VARIABLE};

/// The script of an index; the kinds come round in turn.
pub fn script(seed: u64, index: usize) -> Script {
    let rng = &mut Rng::new(seed, index as u64);
    let mut made = match index % 8 {
        0 | 1 => Making::new(Store::new(1024, 128)),
        2 => Making::new(Store::new(rng.below(7), rng.below(4))),
        3 => columns(rng),
        4 => towers(rng),
        5 => Making::new(laid(rng)),
        6 => Making::new(spoilt(rng, index / 8)),
        _ if index % 128 == 127 => full(rng),
        _ => orders(rng),
    };
    for _ in 0..rng.within(4, 40) {
        made.random_call(rng);
    }
    made.script
}

const NAMES: [&[u8]; 9] = [b"f", b"g", b"x", b"y", b"Add", b"t0", b"t1", b"let", b"-7"];
const STARTS: [u64; 10] = [0, 0, 0, 1, 8, 98, 999_999, 4_294_966_271, 4_294_966_272, u64::MAX];

/// A script in the making, with the store as the calls so far leave it.
struct Making {
    script: Script,
    store: Store,
}

impl Making {
    fn new(store: Store) -> Self {
        Making { script: Script { store: store.clone(), ops: Vec::new() }, store }
    }

    /// Appends a call and answers the term it names, if it does.
    fn call(&mut self, op: Op) -> u64 {
        let (answers, store) = run(&Script { store: self.store.clone(), ops: vec![op.clone()] });
        self.store = store;
        self.script.ops.push(op);
        if let [Answer::Term(number)] = answers[..] { number } else { 0 }
    }

    fn add(&mut self, name: &[u8], kids: &[u64]) -> u64 {
        self.call(Op::Add(Term::App(name.to_vec(), kids.to_vec())))
    }

    fn variable(&mut self, name: &[u8]) -> u64 {
        self.call(Op::Add(Term::Variable(name.to_vec())))
    }

    /// A term number, mostly one that the store has.
    fn number(&self, rng: &mut Rng) -> u64 {
        let count = self.store.term_count.min(2000) as usize;
        match rng.below(30) {
            0 => count as u64,
            1 => rng.pick(&[u64::MAX, 1024, 1 << 32, count as u64 + 1]),
            _ => rng.below(count.max(1)) as u64,
        }
    }

    fn term(&self, rng: &mut Rng) -> Term {
        match rng.below(5) {
            0 => Term::Literal(make::literal(rng)),
            1 => Term::Variable(name(rng)),
            _ => {
                let kids = if rng.often(4) { rng.within(9, 12) } else { rng.below(5) + rng.below(5) };
                Term::App(name(rng), (0..kids).map(|_| self.number(rng)).collect())
            }
        }
    }

    fn random_call(&mut self, rng: &mut Rng) {
        let op = match rng.below(16) {
            0..=5 => Op::Add(self.term(rng)),
            6 => Op::Find(self.term(rng)),
            7 => Op::Find(self.present(rng)),
            8 => Op::Size,
            9 => Op::Get(self.number(rng)),
            10 => Op::Compare(self.number(rng), self.number(rng)),
            11 => Op::Sort((0..rng.below(12)).map(|_| self.number(rng)).collect()),
            12 | 13 => Op::Plain { room: 1 << 16, term: self.number(rng) },
            _ => self.random_let(rng),
        };
        let op = self.fitted(rng, op);
        self.call(op);
    }

    /// A term that the store has, where it has one.
    fn present(&self, rng: &mut Rng) -> Term {
        let (answers, _) = run(&Script { store: self.store.clone(), ops: vec![Op::Get(self.number(rng))] });
        match answers.into_iter().next() {
            Some(Answer::Got(term)) => term,
            _ => Term::Literal(0),
        }
    }

    fn random_let(&self, rng: &mut Rng) -> Op {
        let prefix = if rng.often(60) { vec![] } else { name(rng) };
        let hint = if rng.often(60) { b"t".to_vec() } else { name(rng) };
        Op::Let {
            room: 1 << 16,
            prefix,
            hint,
            start: rng.pick(&STARTS),
            bare_zero: rng.often(50),
            term: self.number(rng),
        }
    }

    /// The call with a room at the edge of its text, half of the time.
    fn fitted(&self, rng: &mut Rng, op: Op) -> Op {
        let (answers, _) = run(&Script { store: self.store.clone(), ops: vec![op.clone()] });
        let length = match &answers[..] {
            [Answer::Plain(text)] | [Answer::Let(_, text)] if rng.often(50) => text.len(),
            _ => return op,
        };
        let edge = [length, length.saturating_sub(1), length + 1, rng.below(length + 1)];
        let new = rng.pick(&edge);
        match op {
            Op::Plain { term, .. } => Op::Plain { room: new, term },
            Op::Let { prefix, hint, start, bare_zero, term, .. } => {
                Op::Let { room: new, prefix, hint, start, bare_zero, term }
            }
            other => other,
        }
    }
}

/// A name, now and then a wrong one.
fn name(rng: &mut Rng) -> Vec<u8> {
    match rng.below(40) {
        0 => vec![],
        1 => vec![b'n'; 32],
        2 => vec![rng.pick(&[0, 0x20, b'(', b')', b'"', b';', 0x7f, 0x80, b'\n'])],
        3 => vec![b'n'; 31],
        4 => b"%".to_vec(),
        5..=7 => {
            let length = rng.within(1, 31);
            make::name(rng, length)
        }
        _ => rng.pick(&NAMES).to_vec(),
    }
}

/// Applications of variables that end at columns 78 to 82, plain, nested and shared.
fn columns(rng: &mut Rng) -> Making {
    let mut made = Making::new(Store::new(1024, 128));
    let depth = rng.below(20);
    let target = rng.within(78, 82) - 2 * depth;
    let mut left = target - 3;
    let mut kids = Vec::new();
    while left > 0 {
        let take = if left <= 32 && (left < 5 || rng.often(40)) { left } else { rng.within(2, 32.min(left - 2)) };
        let label = vec![b'a' + kids.len() as u8; take - 1];
        kids.push(made.variable(&label));
        left -= take;
        if kids.len() == 8 {
            break;
        }
    }
    let mut term = made.add(b"F", &kids);
    if rng.often(50) {
        term = made.add(b"R", &[term, term]);
    }
    for _ in 0..depth {
        term = made.add(b"W", &[term]);
    }
    let zero = rng.often(50);
    made.call(Op::Let { room: 1 << 16, prefix: vec![], hint: b"t".to_vec(), start: 0, bare_zero: zero, term });
    made
}

/// Towers that share: plain lengths and tree sizes run past 64 bits.
fn towers(rng: &mut Rng) -> Making {
    let mut made = Making::new(Store::new(1024, 128));
    let mut term = made.variable(b"x");
    let arity = rng.within(2, 8);
    for _ in 0..rng.within(1, 80) {
        let mut kids = vec![term; arity];
        if rng.often(20) {
            kids[rng.below(arity)] = made.number(rng).min(term);
        }
        term = made.add(b"T", &kids);
    }
    let start = rng.pick(&STARTS);
    made.call(Op::Let { room: 1 << 16, prefix: vec![], hint: b"t".to_vec(), start, bare_zero: true, term });
    made.call(Op::Plain { room: 1 << 16, term });
    made
}

/// Many terms of all kinds, sorted.
fn orders(rng: &mut Rng) -> Making {
    let mut made = Making::new(Store::new(1024, 128));
    for _ in 0..rng.within(5, 40) {
        let term = made.term(rng);
        made.call(Op::Add(term));
    }
    let count = made.store.term_count.max(1) as usize;
    let list = (0..rng.within(1, 3 * count)).map(|_| rng.below(count) as u64).collect();
    made.call(Op::Sort(list));
    made
}

/// A store filled to its last record: what is there needs no room, what is new has none.
fn full(rng: &mut Rng) -> Making {
    let mut made = Making::new(Store::new(rng.pick(&[1024, 1030]), 128));
    let mut store = made.store.clone();
    for number in 0..1024 {
        store.records[number] = Record { literal: number as i64, ..Record::default() };
    }
    store.term_count = 1024 - rng.below(3) as u64;
    made.store = store.clone();
    made.script.store = store;
    made
}

/// A well-formed store laid out by hand: names that no term uses, free places that hold anything.
fn laid(rng: &mut Rng) -> Store {
    let mut store = Store::new(rng.within(6, 20), rng.within(3, 8));
    store.name_count = 3;
    store.names[..3].copy_from_slice(&[Name::new(b"f"), Name::new(b"x"), Name::new(b"unused")]);
    store.term_count = 5;
    store.records[0] = Record { kind: LITERAL, literal: make::literal(rng), ..Record::default() };
    store.records[1] = Record { kind: VARIABLE, symbol: 1, ..Record::default() };
    store.records[2] = Record { kind: APP, symbol: 0, ..Record::default() };
    store.records[3] = Record { kind: APP, symbol: 0, count: 3, kids: [1, 0, 2, 0, 0, 0, 0, 0], ..Record::default() };
    store.records[4] = Record { kind: APP, symbol: 1, count: 2, kids: [3, 3, 0, 0, 0, 0, 0, 0], ..Record::default() };
    if rng.often(50) {
        store.records[5] = Record { kind: 9, symbol: 77, literal: -1, count: 99, kids: [500; 8] };
    }
    if store.names.len() > 3 && rng.often(50) {
        store.names[3] = Name { length: 40, bytes: [b'('; 31] };
    }
    store
}

/// A laid store with one thing wrong.
fn spoilt(rng: &mut Rng, kind: usize) -> Store {
    let mut store = laid(rng);
    let records = store.records.len() as u64;
    let names = store.names.len() as u64;
    match kind % 20 {
        0 => store.term_count = records + 1,
        1 => store.name_count = names + 1,
        2 => store.names[2] = Name::default(),
        3 => store.names[2].length = 32,
        4 => store.names[2].bytes[1] = b' ',
        5 => store.names[2].bytes[20] = b'a',
        6 => store.names[2] = store.names[0],
        7 => store.records[1].symbol = 3,
        8 => store.records[3].symbol = u64::MAX,
        9 => store.records[3].kids[1] = 3,
        10 => store.records[3].kids[0] = 4,
        11 => store.records[3].kids[5] = 1,
        12 => store.records[3].count = 9,
        13 => store.records[3].literal = 1,
        14 => store.records[1].literal = 1,
        15 => store.records[0].symbol = 1,
        16 => store.records[0].kids[0] = 1,
        17 => store.records[2] = store.records[1],
        18 => store.records[0].kind = 3,
        _ => (store.records[1].count, store.name_count) = (1, 3),
    }
    store
}
