//! The term store of document 01: lent lists of term records and of names, and the calls on them.

use crate::file::name_byte;
use crate::refusal::Refusal;
use std::cmp::Ordering;

pub const MOST_TERMS: usize = 1024;
pub const MOST_NAMES: usize = 128;
pub const MOST_CHILDREN: usize = 8;
pub const LONGEST_NAME: usize = 31;

/// A term as a caller sees it; children are term numbers.
#[derive(Clone, PartialEq, Eq, Debug)]
pub enum Term {
    Literal(i64),
    Variable(Vec<u8>),
    App(Vec<u8>, Vec<u64>),
}

pub const LITERAL: u64 = 0;
pub const VARIABLE: u64 = 1;
pub const APP: u64 = 2;

/// A term record; what its kind does not use is zero.
#[derive(Clone, Copy, PartialEq, Eq, Debug, Default)]
pub struct Record {
    pub kind: u64,
    pub symbol: u64,
    pub literal: i64,
    pub count: u64,
    pub kids: [u64; MOST_CHILDREN],
}

/// An entry of the symbol table; bytes past the length are zero.
#[derive(Clone, Copy, PartialEq, Eq, Debug, Default)]
pub struct Name {
    pub length: u64,
    pub bytes: [u8; LONGEST_NAME],
}

/// The lent lists with the counts of what they hold.
#[derive(Clone, PartialEq, Eq, Debug)]
pub struct Store {
    pub records: Vec<Record>,
    pub names: Vec<Name>,
    pub term_count: u64,
    pub name_count: u64,
}

type Answer<T> = Result<T, Refusal>;

impl Name {
    pub fn new(text: &[u8]) -> Self {
        let mut bytes = [0; LONGEST_NAME];
        bytes[..text.len()].copy_from_slice(text);
        Name { length: text.len() as u64, bytes }
    }

    pub fn text(&self) -> &[u8] {
        &self.bytes[..self.length as usize]
    }

    fn well_formed(&self) -> bool {
        (1..=LONGEST_NAME as u64).contains(&self.length)
            && self.text().iter().all(|b| name_byte(*b))
            && self.bytes[self.length as usize..].iter().all(|b| *b == 0)
    }
}

/// 'length 0 or over 31, or a byte not allowed'
pub fn valid_name(text: &[u8]) -> bool {
    (1..=LONGEST_NAME).contains(&text.len()) && text.iter().all(|b| name_byte(*b))
}

impl Store {
    /// An empty store over lent lists of these lengths.
    pub fn new(terms: usize, names: usize) -> Self {
        Store {
            records: vec![Record::default(); terms],
            names: vec![Name::default(); names],
            term_count: 0,
            name_count: 0,
        }
    }

    fn terms(&self) -> &[Record] {
        &self.records[..self.term_count as usize]
    }

    fn symbols(&self) -> &[Name] {
        &self.names[..self.name_count as usize]
    }

    fn term_room(&self) -> usize {
        self.records.len().min(MOST_TERMS)
    }

    fn name_room(&self) -> usize {
        self.names.len().min(MOST_NAMES)
    }

    /// 'Well formed: counts within limits and lent lengths; names valid and distinct; every symbol number known;
    /// every child lower than its parent; unused fields zero; no two terms equal.'
    pub fn well_formed(&self) -> bool {
        if self.term_count > self.term_room() as u64 || self.name_count > self.name_room() as u64 {
            return false;
        }
        let distinct_name = |(at, name): (usize, &Name)| !self.symbols()[..at].contains(name);
        let distinct_term = |(at, term): (usize, &Record)| !self.terms()[..at].contains(term);
        self.symbols().iter().all(Name::well_formed)
            && self.symbols().iter().enumerate().all(distinct_name)
            && self.terms().iter().enumerate().all(|(at, term)| self.record_fits(at, term))
            && self.terms().iter().enumerate().all(distinct_term)
    }

    fn record_fits(&self, at: usize, record: &Record) -> bool {
        let bare = Record { kind: record.kind, ..Record::default() };
        match record.kind {
            LITERAL => *record == Record { literal: record.literal, ..bare },
            VARIABLE => *record == Record { symbol: record.symbol, ..bare } && record.symbol < self.name_count,
            APP => {
                let count = record.count.min(MOST_CHILDREN as u64) as usize;
                record.literal == 0
                    && record.symbol < self.name_count
                    && record.count == count as u64
                    && record.kids[..count].iter().all(|k| *k < at as u64)
                    && record.kids[count..].iter().all(|k| *k == 0)
            }
            _ => false,
        }
    }

    pub fn check(&self) -> Answer<()> {
        if self.well_formed() { Ok(()) } else { Err(Refusal::BadStore) }
    }

    fn known(&self, number: u64) -> Answer<()> {
        if number < self.term_count { Ok(()) } else { Err(Refusal::BadTerm) }
    }

    /// What the call is handed, judged in its kind's order: 4, 3, 14.
    fn judge(&self, term: &Term) -> Answer<()> {
        match term {
            Term::Literal(_) => Ok(()),
            Term::Variable(name) | Term::App(name, _) if !valid_name(name) => Err(Refusal::BadName),
            Term::Variable(_) => Ok(()),
            Term::App(_, kids) if kids.len() > MOST_CHILDREN => Err(Refusal::BadSize),
            Term::App(_, kids) => kids.iter().try_for_each(|k| self.known(*k)),
        }
    }

    /// The record of a judged term, its name taking the given number.
    fn record(term: &Term, symbol: u64) -> Record {
        match term {
            Term::Literal(value) => Record { kind: LITERAL, literal: *value, ..Record::default() },
            Term::Variable(_) => Record { kind: VARIABLE, symbol, ..Record::default() },
            Term::App(_, list) => {
                let mut kids = [0; MOST_CHILDREN];
                kids[..list.len()].copy_from_slice(list);
                Record { kind: APP, symbol, literal: 0, count: list.len() as u64, kids }
            }
        }
    }

    fn symbol_of(&self, name: &[u8]) -> Option<u64> {
        self.symbols().iter().position(|s| s.text() == name).map(|at| at as u64)
    }

    /// The number of a judged term if it is there.
    fn number_of(&self, term: &Term) -> Option<u64> {
        let symbol = match term {
            Term::Literal(_) => 0,
            Term::Variable(name) | Term::App(name, _) => self.symbol_of(name)?,
        };
        let wanted = Self::record(term, symbol);
        self.terms().iter().position(|r| *r == wanted).map(|at| at as u64)
    }

    pub fn find(&self, term: &Term) -> Answer<u64> {
        self.check()?;
        self.judge(term)?;
        self.number_of(term).ok_or(Refusal::Absent)
    }

    pub fn add(&mut self, term: &Term) -> Answer<u64> {
        self.check()?;
        self.add_checked(term)
    }

    /// 'give the number of the term if it is already there, needing no room; else append it, with its name if new'
    pub fn add_checked(&mut self, term: &Term) -> Answer<u64> {
        self.judge(term)?;
        if let Some(number) = self.number_of(term) {
            return Ok(number);
        }
        let new_name = match term {
            Term::Literal(_) => None,
            Term::Variable(name) | Term::App(name, _) => Some(name).filter(|n| self.symbol_of(n).is_none()),
        };
        let full = |count: u64, room: usize| count >= room as u64;
        if full(self.term_count, self.term_room()) || new_name.is_some() && full(self.name_count, self.name_room()) {
            return Err(Refusal::NoRoom);
        }
        if let Some(name) = new_name {
            self.names[self.name_count as usize] = Name::new(name);
            self.name_count += 1;
        }
        let symbol = match term {
            Term::Literal(_) => 0,
            Term::Variable(name) | Term::App(name, _) => self.symbol_of(name).unwrap_or(0),
        };
        self.records[self.term_count as usize] = Self::record(term, symbol);
        self.term_count += 1;
        Ok(self.term_count - 1)
    }

    pub fn size(&self) -> Answer<u64> {
        self.check()?;
        Ok(self.term_count)
    }

    pub fn get(&self, number: u64) -> Answer<Term> {
        self.check()?;
        self.known(number)?;
        Ok(self.term(number))
    }

    /// The term of a known number.
    pub fn term(&self, number: u64) -> Term {
        let record = &self.records[number as usize];
        let name = || self.names[record.symbol as usize].text().to_vec();
        match record.kind {
            LITERAL => Term::Literal(record.literal),
            VARIABLE => Term::Variable(name()),
            _ => Term::App(name(), record.kids[..record.count as usize].to_vec()),
        }
    }

    pub fn compare(&self, a: u64, b: u64) -> Answer<Ordering> {
        self.check()?;
        self.known(a)?;
        self.known(b)?;
        Ok(self.order(a, b))
    }

    pub fn sort(&self, numbers: &[u64]) -> Answer<Vec<u64>> {
        self.check()?;
        numbers.iter().try_for_each(|n| self.known(*n))?;
        let mut sorted = numbers.to_vec();
        sorted.sort_by(|a, b| self.order(*a, *b));
        Ok(sorted)
    }

    /// 'literal, then variable, then application. Literals by value; names by bytes; applications by head, child
    /// count, then children left to right. Equal means the same number.'
    fn order(&self, a: u64, b: u64) -> Ordering {
        if a == b {
            return Ordering::Equal;
        }
        let kind = |n: u64| self.records[n as usize].kind;
        let inside = match (self.term(a), self.term(b)) {
            (Term::Literal(x), Term::Literal(y)) => x.cmp(&y),
            (Term::Variable(x), Term::Variable(y)) => x.cmp(&y),
            (Term::App(f, xs), Term::App(g, ys)) => f.cmp(&g).then(xs.len().cmp(&ys.len())).then_with(|| {
                let differing = xs.iter().zip(&ys).find(|(x, y)| x != y);
                differing.map_or(Ordering::Equal, |(x, y)| self.order(*x, *y))
            }),
            _ => Ordering::Equal,
        };
        kind(a).cmp(&kind(b)).then(inside)
    }
}
