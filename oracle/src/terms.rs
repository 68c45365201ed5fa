//! Scripts of calls on a term store, answered by the crate's own `TermDag` behind document 01's refusals.

use crate::faults::{Fault, caught, guarded};
use crate::program::{Stop, plain_text};
use crate::util::{FreshGen, SymbolGen};
use crate::{Literal, Term, TermDag, TermId};
use paper::refusal::Refusal;
use paper::script::{Answer, Op, Script};
use paper::store::{self, Store};
use std::cell::Cell;

const LAST_START: u64 = 4_294_966_271;
/// Up to here a start count is reached by asking the Rust for that many names.
const COUNTED_START: u64 = 1_000;

/// The Rust's store, with the room that the script lends.
struct Side {
    dag: TermDag,
    names: Vec<String>,
    term_room: usize,
    name_room: usize,
}

/// The answers to a script, and the Rust's faults that stood in their way; the error is a hard one.
pub fn answers(script: &Script) -> Result<(Vec<Answer>, Vec<Fault>), String> {
    let mut side = well_formed(&script.store).then(|| Side::new(&script.store));
    let (paper, _) = paper::script::run(script);
    let mut faults = Vec::new();
    let mut answers = Vec::new();
    for (op, second) in script.ops.iter().zip(paper) {
        let own = match &mut side {
            Some(side) => side.answer(op),
            None => Err(Refusal::BadStore.into()),
        };
        let answer = match own {
            Ok(answer) => answer,
            Err(Stop::Refused(refusal)) => Answer::Refused(refusal),
            Err(Stop::Fault(Fault::Unknown(text))) => {
                return Err(format!("the Rust panicked in a way not known before at '{}': {text}", op.line()));
            }
            Err(Stop::Fault(fault)) => {
                faults.push(fault);
                second.clone()
            }
            Err(Stop::Mismatch(what)) => return Err(what),
        };
        if answer != second {
            let (own, paper) = (answer.line(), second.line());
            return Err(format!("at '{}' the Rust answers '{own}' but document 01 '{paper}'", op.line()));
        }
        answers.push(answer);
    }
    Ok((answers, faults))
}

fn text(bytes: &[u8]) -> String {
    bytes.iter().copied().map(char::from).collect()
}

fn name_allowed(bytes: &[u8]) -> bool {
    let allowed = |b: &u8| b.is_ascii_graphic() && !matches!(b, b'(' | b')' | b'"' | b';');
    !bytes.is_empty() && bytes.len() <= 31 && bytes.iter().all(allowed)
}

/// Document 01's 'Well formed', over the lent lists.
fn well_formed(store: &Store) -> bool {
    let (terms, names) = (store.term_count as usize, store.name_count as usize);
    if terms > store.records.len() || terms > 1024 || names > store.names.len() || names > 128 {
        return false;
    }
    let mut seen = crate::util::HashSet::default();
    for name in &store.names[..names] {
        let length = name.length as usize;
        if length > 31 || !name_allowed(&name.bytes[..length]) || name.bytes[length..] != [0; 31][length..] {
            return false;
        }
        if !seen.insert(name.bytes) {
            return false;
        }
    }
    let mut seen = crate::util::HashSet::default();
    for (at, r) in store.records[..terms].iter().enumerate() {
        let named = r.symbol < store.name_count && r.literal == 0;
        let shape = match r.kind {
            store::LITERAL => r.symbol == 0 && r.count == 0,
            store::VARIABLE => named && r.count == 0,
            store::APP => named && r.count <= 8,
            _ => false,
        };
        let used = r.count.min(8) as usize;
        let kids = r.kids[..used].iter().all(|k| *k < at as u64) && r.kids[used..] == [0; 8][used..];
        if !shape || !kids || !seen.insert((r.kind, r.symbol, r.literal, r.count, r.kids)) {
            return false;
        }
    }
    true
}

impl Side {
    /// The Rust's store with what a well-formed lent store holds.
    fn new(store: &Store) -> Self {
        let names = store.names[..store.name_count as usize].iter();
        let names: Vec<String> = names.map(|n| text(&n.bytes[..n.length as usize])).collect();
        let mut dag = TermDag::default();
        for r in &store.records[..store.term_count as usize] {
            let name = || names[r.symbol as usize].clone();
            match r.kind {
                store::LITERAL => dag.lit(Literal::Int(r.literal)),
                store::VARIABLE => dag.var(name()),
                _ => dag.app(name(), r.kids[..r.count as usize].iter().map(|k| *k as usize).collect()),
            };
        }
        Side { dag, names, term_room: store.records.len().min(1024), name_room: store.names.len().min(128) }
    }

    fn answer(&mut self, op: &Op) -> Result<Answer, Stop> {
        Ok(match op {
            Op::Add(term) => Answer::Term(self.add(term)?),
            Op::Find(term) => Answer::Term(self.find(&self.term(term)?).ok_or(Refusal::Absent)?),
            Op::Size => Answer::Size(self.dag.size() as u64),
            Op::Get(id) => Answer::Got(self.get(self.known(*id)?)),
            Op::Compare(a, b) => Answer::Order(self.dag.ast_cmp(self.known(*a)?, self.known(*b)?)),
            Op::Sort(list) => {
                let mut ids = list.iter().map(|id| self.known(*id)).collect::<Result<Vec<TermId>, Refusal>>()?;
                self.dag.sort_terms_by_ast(&mut ids);
                Answer::Sorted(ids.into_iter().map(|id| id as u64).collect())
            }
            Op::Plain { room, term } => {
                let text = plain_text(&self.dag, self.known(*term)?)?;
                Answer::Plain(fitting(text, *room)?)
            }
            Op::Let { room, prefix, hint, start, bare_zero, term } => {
                let id = self.known(*term)?;
                if !prefix.is_empty() && !name_allowed(prefix) || !name_allowed(hint) {
                    return Err(Refusal::BadName.into());
                }
                if *start > LAST_START {
                    return Err(Refusal::BadSize.into());
                }
                let (next, text) = self.let_text(id, &text(prefix), &text(hint), *start, *bare_zero)?;
                Answer::Let(next, fitting(text, *room)?)
            }
        })
    }

    fn known(&self, id: u64) -> Result<TermId, Refusal> {
        if id < self.dag.size() as u64 { Ok(id as TermId) } else { Err(Refusal::BadTerm) }
    }

    /// The Rust's term for what a call is handed, judged in document 01's order.
    fn term(&self, wanted: &store::Term) -> Result<Term, Refusal> {
        match wanted {
            store::Term::Literal(value) => return Ok(Term::Lit(Literal::Int(*value))),
            store::Term::Variable(name) | store::Term::App(name, _) if !name_allowed(name) => Err(Refusal::BadName),
            store::Term::App(_, kids) if kids.len() > 8 => Err(Refusal::BadSize),
            _ => Ok(()),
        }?;
        Ok(match wanted {
            store::Term::Variable(name) => Term::Var(text(name)),
            store::Term::App(name, kids) => {
                Term::App(text(name), kids.iter().map(|k| self.known(*k)).collect::<Result<_, _>>()?)
            }
            store::Term::Literal(value) => Term::Lit(Literal::Int(*value)),
        })
    }

    /// The Rust's `lookup`, which panics for a term that it does not hold.
    fn find(&self, term: &Term) -> Option<u64> {
        caught(|| self.dag.lookup(term)).ok().map(|id| id as u64)
    }

    fn add(&mut self, wanted: &store::Term) -> Result<u64, Refusal> {
        let term = self.term(wanted)?;
        if let Some(id) = self.find(&term) {
            return Ok(id);
        }
        if self.dag.size() >= self.term_room {
            return Err(Refusal::NoRoom);
        }
        if let Term::Var(name) | Term::App(name, _) = &term
            && !self.names.contains(name)
        {
            if self.names.len() >= self.name_room {
                return Err(Refusal::NoRoom);
            }
            self.names.push(name.clone());
        }
        Ok(match term {
            Term::Lit(literal) => self.dag.lit(literal),
            Term::Var(name) => self.dag.var(name),
            Term::App(name, children) => self.dag.app(name, children),
        } as u64)
    }

    fn get(&self, id: TermId) -> store::Term {
        match self.dag.get(id) {
            Term::Lit(Literal::Int(value)) => store::Term::Literal(*value),
            Term::Var(name) => store::Term::Variable(name.clone().into_bytes()),
            Term::App(name, children) => {
                store::Term::App(name.clone().into_bytes(), children.iter().map(|c| *c as u64).collect())
            }
        }
    }

    /// The Rust's let text and the next unused count. Its generator starts at 0; a small start is reached by asking it
    /// for names, any start by a hint that carries the count. Where both can be had they must agree.
    fn let_text(&self, id: TermId, prefix: &str, hint: &str, start: u64, bare: bool) -> Result<(u64, String), Stop> {
        let hinted = self.let_text_by_hint(id, prefix, hint, start, bare)?;
        if start > COUNTED_START {
            return Ok(hinted);
        }
        let mut fresh = SymbolGen::new(prefix.to_string());
        fresh.include_zero(!bare);
        for _ in 0..start {
            let _: String = fresh.fresh(hint);
        }
        let text = guarded(|| self.dag.to_string_with_let_and_hint(&mut fresh, id, hint))?;
        let after: String = fresh.fresh(hint);
        let digits = &after[prefix.len() + hint.len()..];
        let counted = (digits.parse().unwrap_or(0), text);
        if counted != hinted {
            return Err(Stop::Mismatch(format!("two ways to start at {start} differ: {counted:?} and {hinted:?}")));
        }
        Ok(counted)
    }

    fn let_text_by_hint(
        &self,
        id: TermId,
        prefix: &str,
        hint: &str,
        start: u64,
        bare: bool,
    ) -> Result<(u64, String), Stop> {
        let mut fresh = SymbolGen::new(prefix.to_string());
        let next = Cell::new(start);
        let mut bindings = String::new();
        let root = guarded(|| {
            self.dag.to_string_with_let_internal(&mut fresh, id, &mut bindings, |_| {
                let count = next.replace(next.get() + 1);
                if bare && count == 0 { hint.to_string() } else { format!("{hint}{count}") }
            })
        })?;
        Ok((next.get(), format!("{bindings}\n{root}")))
    }
}

fn fitting(text: String, room: usize) -> Result<Vec<u8>, Refusal> {
    if text.len() <= room { Ok(text.into_bytes()) } else { Err(Refusal::NoRoom) }
}
