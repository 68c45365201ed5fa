//! Scripts of calls on a term store: the line format (oracle/README.md), and document 01's answers to them.

use crate::refusal::Refusal;
use crate::store::{LONGEST_NAME, MOST_CHILDREN, Name, Record, Store, Term};
use crate::text::{self, Naming};
use std::cmp::Ordering;

/// The longest lent lists a script may ask for.
const MOST_LENT: usize = 4096;

#[derive(Clone, PartialEq, Eq, Debug)]
pub enum Op {
    Add(Term),
    Find(Term),
    Size,
    Get(u64),
    Compare(u64, u64),
    Sort(Vec<u64>),
    Plain { room: usize, term: u64 },
    Let { room: usize, prefix: Vec<u8>, hint: Vec<u8>, start: u64, bare_zero: bool, term: u64 },
}

/// The lent store as the script sets it up, and the calls on it.
pub struct Script {
    pub store: Store,
    pub ops: Vec<Op>,
}

#[derive(Clone, PartialEq, Eq, Debug)]
pub enum Answer {
    Term(u64),
    Size(u64),
    Got(Term),
    Order(Ordering),
    Sorted(Vec<u64>),
    Plain(Vec<u8>),
    Let(u64, Vec<u8>),
    Refused(Refusal),
}

// ---- names and texts on a line: '%' and two hex digits for a byte, a lone '%' for the empty name

fn coded(byte: u8, bare: impl Fn(u8) -> bool) -> String {
    if byte != b'%' && bare(byte) { char::from(byte).to_string() } else { format!("%{byte:02X}") }
}

fn write_name(name: &[u8]) -> String {
    if name.is_empty() {
        return "%".into();
    }
    name.iter().map(|b| coded(*b, |b| (0x21..=0x7e).contains(&b))).collect()
}

fn write_text(text: &[u8]) -> String {
    text.iter().map(|b| coded(*b, |b| (0x20..=0x7e).contains(&b))).collect()
}

fn read_name(word: &str) -> Result<Vec<u8>, String> {
    let wrong = || format!("the name {word} has a '%' without two hex digits; write a byte as %XX");
    if word == "%" {
        return Ok(vec![]);
    }
    let mut name = Vec::new();
    let mut rest = word.as_bytes();
    while let Some((first, after)) = rest.split_first() {
        rest = after;
        if *first != b'%' {
            name.push(*first);
            continue;
        }
        let (digits, after) = after.split_at_checked(2).ok_or_else(wrong)?;
        let digits = std::str::from_utf8(digits).map_err(|_| wrong())?;
        name.push(u8::from_str_radix(digits, 16).map_err(|_| wrong())?);
        rest = after;
    }
    Ok(name)
}

// ---- lines read

fn number<T: std::str::FromStr>(word: &str, what: &str) -> Result<T, String> {
    word.parse().map_err(|_| format!("{word} is not {what}"))
}

fn term_number(word: &str) -> Result<u64, String> {
    number(word, "a term number (a whole number below 2^64)")
}

fn room(word: &str) -> Result<usize, String> {
    number(word, "a room in bytes (a whole number below 2^64)")
}

fn term(words: &[&str]) -> Option<Result<Term, String>> {
    Some(match words {
        ["literal", value] => number(value, "a signed 64-bit integer").map(Term::Literal),
        ["variable", name] => read_name(name).map(Term::Variable),
        ["app", name, kids @ ..] => read_name(name).and_then(|name| {
            let kids = kids.iter().map(|k| term_number(k)).collect::<Result<Vec<u64>, String>>()?;
            Ok(Term::App(name, kids))
        }),
        _ => return None,
    })
}

fn op(words: &[&str]) -> Result<Op, String> {
    let find = words.first() == Some(&"find");
    if let Some(wanted) = term(&words[usize::from(find)..]) {
        return Ok(if find { Op::Find(wanted?) } else { Op::Add(wanted?) });
    }
    Ok(match words {
        ["size"] => Op::Size,
        ["get", t] => Op::Get(term_number(t)?),
        ["compare", a, b] => Op::Compare(term_number(a)?, term_number(b)?),
        ["sort", list @ ..] => Op::Sort(list.iter().map(|t| term_number(t)).collect::<Result<_, _>>()?),
        ["plain", r, t] => Op::Plain { room: room(r)?, term: term_number(t)? },
        ["let", r, prefix, hint, start, zero @ ("0" | "1"), t] => Op::Let {
            room: room(r)?,
            prefix: read_name(prefix)?,
            hint: read_name(hint)?,
            start: number(start, "a start count (a whole number below 2^64)")?,
            bare_zero: *zero == "1",
            term: term_number(t)?,
        },
        _ => return Err(format!("'{}' is none of the calls that oracle/README.md lists", words.join(" "))),
    })
}

/// Lines that lay out the lent store by hand; whether it was one.
fn setup(words: &[&str], store: &mut Store, at: &mut (usize, usize)) -> Result<bool, String> {
    let beyond = |what: &str| format!("there are more {what} lines than lent places");
    match words {
        ["name", length, bytes] => {
            let mut name = Name { length: number(length, "a name length")?, ..Name::default() };
            let text = read_name(bytes)?;
            if text.len() > LONGEST_NAME {
                return Err(format!("the name entry {bytes} has over {LONGEST_NAME} bytes"));
            }
            name.bytes[..text.len()].copy_from_slice(&text);
            *store.names.get_mut(at.1).ok_or_else(|| beyond("name"))? = name;
            at.1 += 1;
        }
        ["record", kind, symbol, literal, count, kids @ ..] if kids.len() == MOST_CHILDREN => {
            let mut record = Record {
                kind: number(kind, "a record's kind")?,
                symbol: number(symbol, "a symbol number")?,
                literal: number(literal, "a signed 64-bit integer")?,
                count: number(count, "a child count")?,
                kids: [0; MOST_CHILDREN],
            };
            for (place, kid) in record.kids.iter_mut().zip(kids) {
                *place = term_number(kid)?;
            }
            *store.records.get_mut(at.0).ok_or_else(|| beyond("record"))? = record;
            at.0 += 1;
        }
        ["counts", terms, names] => {
            store.term_count = number(terms, "a term count")?;
            store.name_count = number(names, "a name count")?;
        }
        _ => return Ok(false),
    }
    Ok(true)
}

/// Reads a whole script; the error names the line and what is wrong with it.
pub fn read(script: &[u8]) -> Result<Script, String> {
    let script = std::str::from_utf8(script).map_err(|_| "the script is not text: write bytes as %XX".to_string())?;
    let mut lines = script.lines().enumerate().filter(|(_, l)| !l.is_empty() && !l.starts_with('#'));
    let first = lines.next().map(|(_, line)| line.split(' ').collect::<Vec<_>>()).unwrap_or_default();
    let ["lent", terms, names] = first[..] else {
        return Err("the first line of a script must be 'lent TERMS NAMES', the two lent lengths".into());
    };
    let lent = |word| match number(word, "a lent length")? {
        length if length <= MOST_LENT => Ok(length),
        length => Err(format!("a lent length must be at most {MOST_LENT}, not {length}")),
    };
    let mut script = Script { store: Store::new(lent(terms)?, lent(names)?), ops: Vec::new() };
    let mut at = (0, 0);
    for (index, line) in lines {
        let words: Vec<&str> = line.split(' ').collect();
        let place = |fault| format!("line {}: {fault}", index + 1);
        let laid = script.ops.is_empty() && setup(&words, &mut script.store, &mut at).map_err(place)?;
        if !laid {
            script.ops.push(op(&words).map_err(place)?);
        }
    }
    Ok(script)
}

// ---- lines written

fn join(numbers: &[u64]) -> String {
    numbers.iter().map(|n| format!(" {n}")).collect()
}

impl std::fmt::Display for TermLine<'_> {
    fn fmt(&self, f: &mut std::fmt::Formatter) -> std::fmt::Result {
        match self.0 {
            Term::Literal(value) => write!(f, "literal {value}"),
            Term::Variable(name) => write!(f, "variable {}", write_name(name)),
            Term::App(name, kids) => write!(f, "app {}{}", write_name(name), join(kids)),
        }
    }
}

/// A term as the words of a line.
struct TermLine<'a>(&'a Term);

impl Op {
    pub fn line(&self) -> String {
        match self {
            Op::Add(term) => TermLine(term).to_string(),
            Op::Find(term) => format!("find {}", TermLine(term)),
            Op::Size => "size".into(),
            Op::Get(t) => format!("get {t}"),
            Op::Compare(a, b) => format!("compare {a} {b}"),
            Op::Sort(list) => format!("sort{}", join(list)),
            Op::Plain { room, term } => format!("plain {room} {term}"),
            Op::Let { room, prefix, hint, start, bare_zero, term } => {
                let (prefix, hint) = (write_name(prefix), write_name(hint));
                format!("let {room} {prefix} {hint} {start} {} {term}", u8::from(*bare_zero))
            }
        }
    }
}

impl Script {
    /// The script as text; what it lays out by hand is what differs from an empty store.
    pub fn write(&self) -> String {
        let store = &self.store;
        let mut out = format!("lent {} {}\n", store.records.len(), store.names.len());
        let used = store.names.iter().rposition(|n| *n != Name::default()).map_or(0, |at| at + 1);
        for name in &store.names[..used] {
            let end = name.bytes.iter().rposition(|b| *b != 0).map_or(0, |at| at + 1);
            out += &format!("name {} {}\n", name.length, write_name(&name.bytes[..end]));
        }
        let used = store.records.iter().rposition(|r| *r != Record::default()).map_or(0, |at| at + 1);
        for r in &store.records[..used] {
            out += &format!("record {} {} {} {}{}\n", r.kind, r.symbol, r.literal, r.count, join(&r.kids));
        }
        if store.term_count > 0 || store.name_count > 0 {
            out += &format!("counts {} {}\n", store.term_count, store.name_count);
        }
        for op in &self.ops {
            out += &op.line();
            out.push('\n');
        }
        out
    }
}

impl Answer {
    pub fn line(&self) -> String {
        match self {
            Answer::Term(number) => format!("term {number}"),
            Answer::Size(size) => format!("size {size}"),
            Answer::Got(term) => TermLine(term).to_string(),
            Answer::Order(Ordering::Less) => "less".into(),
            Answer::Order(Ordering::Equal) => "equal".into(),
            Answer::Order(Ordering::Greater) => "greater".into(),
            Answer::Sorted(list) => format!("sorted{}", join(list)),
            Answer::Plain(text) => format!("plain {} {}", text.len(), write_text(text)),
            Answer::Let(next, text) => format!("let {next} {} {}", text.len(), write_text(text)),
            Answer::Refused(refusal) => format!("refused {}", refusal.number()),
        }
    }
}

/// The answers as text, a line each.
pub fn write_answers(answers: &[Answer]) -> Vec<u8> {
    answers.iter().map(|a| a.line() + "\n").collect::<String>().into_bytes()
}

// ---- document 01's answers

fn answer(store: &mut Store, op: &Op) -> Result<Answer, Refusal> {
    Ok(match op {
        Op::Add(term) => Answer::Term(store.add(term)?),
        Op::Find(term) => Answer::Term(store.find(term)?),
        Op::Size => Answer::Size(store.size()?),
        Op::Get(t) => Answer::Got(store.get(*t)?),
        Op::Compare(a, b) => Answer::Order(store.compare(*a, *b)?),
        Op::Sort(list) => Answer::Sorted(store.sort(list)?),
        Op::Plain { room, term } => Answer::Plain(text::plain(store, *term, *room)?),
        Op::Let { room, prefix, hint, start, bare_zero, term } => {
            let naming = Naming { prefix, hint, start: *start, bare_zero: *bare_zero };
            let (next, text) = text::with_let(store, *term, &naming, *room)?;
            Answer::Let(next, text)
        }
    })
}

/// Document 01's answers to a script, and the store as the calls leave it.
pub fn run(script: &Script) -> (Vec<Answer>, Store) {
    let mut store = script.store.clone();
    let answers = script.ops.iter().map(|op| answer(&mut store, op).unwrap_or_else(Answer::Refused)).collect();
    (answers, store)
}
