//! Plain text and let text of document 01, over a well-formed store.

use crate::refusal::Refusal;
use crate::store::{Store, Term, valid_name};

const WIDTH: usize = 80;
const STEP: usize = 2;
const BOUND_SIZE: u64 = 4;
const LAST_START: u64 = 4_294_966_271;

type Answer<T> = Result<T, Refusal>;

/// How let names are made.
pub struct Naming<'a> {
    pub prefix: &'a [u8],
    pub hint: &'a [u8],
    pub start: u64,
    /// The zero flag: count 0 prints no digits.
    pub bare_zero: bool,
}

fn known(store: &Store, root: u64) -> Answer<()> {
    store.check()?;
    if root < store.term_count { Ok(()) } else { Err(Refusal::BadTerm) }
}

fn fits(text: Vec<u8>, room: usize) -> Answer<Vec<u8>> {
    if text.len() <= room { Ok(text) } else { Err(Refusal::NoRoom) }
}

/// '`(name a b)`, `(name)` without children, bare literals and variables'
pub fn plain(store: &Store, root: u64, room: usize) -> Answer<Vec<u8>> {
    known(store, root)?;
    plain_checked(store, root, room)
}

/// The same for a store and a root already found good.
pub fn plain_checked(store: &Store, root: u64, room: usize) -> Answer<Vec<u8>> {
    if plain_lengths(store, root)[root as usize] > room as u64 {
        return Err(Refusal::NoRoom);
    }
    let mut out = Vec::new();
    write_plain(store, root, &mut out);
    Ok(out)
}

/// The plain length of every term up to the root, saturating: lengths run past 64 bits.
fn plain_lengths(store: &Store, root: u64) -> Vec<u64> {
    let mut lengths: Vec<u64> = Vec::new();
    for number in 0..=root {
        let length = match store.term(number) {
            Term::Literal(value) => value.to_string().len() as u64,
            Term::Variable(name) => name.len() as u64,
            Term::App(name, kids) => kids
                .iter()
                .fold(name.len() as u64 + 2, |sum, kid| sum.saturating_add(1).saturating_add(lengths[*kid as usize])),
        };
        lengths.push(length);
    }
    lengths
}

fn write_plain(store: &Store, number: u64, out: &mut Vec<u8>) {
    match store.term(number) {
        Term::Literal(value) => out.extend(value.to_string().bytes()),
        Term::Variable(name) => out.extend(name),
        Term::App(name, kids) => {
            out.push(b'(');
            out.extend(name);
            for kid in kids {
                out.push(b' ');
                write_plain(store, kid, out);
            }
            out.push(b')');
        }
    }
}

/// Let text and the next unused count.
pub fn with_let(store: &Store, root: u64, naming: &Naming, room: usize) -> Answer<(u64, Vec<u8>)> {
    known(store, root)?;
    if !naming.prefix.is_empty() && !valid_name(naming.prefix) || !valid_name(naming.hint) {
        return Err(Refusal::BadName);
    }
    if naming.start > LAST_START {
        return Err(Refusal::BadSize);
    }
    let (next, text) = let_checked(store, root, naming);
    Ok((next, fits(text, room)?))
}

/// The same for arguments already found good.
pub fn let_checked(store: &Store, root: u64, naming: &Naming) -> (u64, Vec<u8>) {
    let mut layout = Layout::new(store, root, naming);
    layout.meet(root, 0);
    let mut out = Vec::new();
    for (name, body) in &layout.bindings {
        write_binding(name, body, &mut out);
    }
    out.push(b'\n');
    write_lines(&layout.lines(root, 0), &mut out);
    (layout.next, out)
}

/// A line of text and the indent it stands at.
type Line = (usize, Vec<u8>);

struct Layout<'a> {
    store: &'a Store,
    naming: &'a Naming<'a>,
    root: u64,
    next: u64,
    /// Per term: child places naming it in distinct reached terms, plus 1 for the root.
    counts: Vec<u64>,
    /// Per term: its size as a tree, saturating; past 64 bits it counts as at least 4.
    sizes: Vec<u64>,
    /// Per term: its let name, once bound.
    names: Vec<Option<Vec<u8>>>,
    /// Name and body of each binding, in the order of binding.
    bindings: Vec<(Vec<u8>, Vec<Line>)>,
}

impl<'a> Layout<'a> {
    fn new(store: &'a Store, root: u64, naming: &'a Naming<'a>) -> Self {
        let length = root as usize + 1;
        let mut counts = vec![0; length];
        let mut sizes = vec![1u64; length];
        counts[root as usize] = 1;
        for number in (0..=root).rev() {
            if let Term::App(_, kids) = store.term(number)
                && counts[number as usize] > 0
            {
                kids.iter().for_each(|k| counts[*k as usize] += 1);
            }
        }
        for number in 0..=root {
            if let Term::App(_, kids) = store.term(number) {
                let size = kids.iter().fold(1u64, |s, k| s.saturating_add(sizes[*k as usize]));
                sizes[number as usize] = size;
            }
        }
        Layout {
            store,
            naming,
            root,
            next: naming.start,
            counts,
            sizes,
            names: vec![None; length],
            bindings: Vec::new(),
        }
    }

    /// Goes down to where each bound term is first met, children before the term.
    fn meet(&mut self, number: u64, indent: usize) {
        if self.names[number as usize].is_some() {
            return;
        }
        if let Term::App(_, kids) = self.store.term(number) {
            for kid in kids {
                self.meet(kid, indent + STEP);
            }
        }
        let at = number as usize;
        if number != self.root && self.counts[at] > 1 && self.sizes[at] >= BOUND_SIZE {
            let body = self.lines(number, indent);
            let name = self.fresh();
            self.bindings.push((name.clone(), body));
            self.names[at] = Some(name);
        }
    }

    fn fresh(&mut self) -> Vec<u8> {
        let mut name = [self.naming.prefix, self.naming.hint].concat();
        if !(self.naming.bare_zero && self.next == 0) {
            name.extend(self.next.to_string().bytes());
        }
        self.next += 1;
        name
    }

    fn inline(&self, number: u64) -> Vec<u8> {
        if let Some(name) = &self.names[number as usize] {
            return name.clone();
        }
        match self.store.term(number) {
            Term::Literal(value) => value.to_string().into_bytes(),
            Term::Variable(name) => name,
            Term::App(name, kids) => {
                let mut out = [b"(", &name[..]].concat();
                for kid in kids {
                    out.push(b' ');
                    out.extend(self.inline(kid));
                }
                out.push(b')');
                out
            }
        }
    }

    /// The lines of a term at an indent; a bound child is its name.
    fn lines(&self, number: u64, indent: usize) -> Vec<Line> {
        let inline = self.inline(number);
        let (Term::App(name, kids), None) = (self.store.term(number), &self.names[number as usize]) else {
            return vec![(indent, inline)];
        };
        let below: Vec<Vec<Line>> = kids.iter().map(|kid| self.lines(*kid, indent + STEP)).collect();
        let breaks = indent + inline.len() > WIDTH || below.iter().any(|lines| lines.len() > 1);
        if !breaks || kids.is_empty() {
            return vec![(indent, inline)];
        }
        let mut lines = vec![(indent, [b"(", &name[..]].concat())];
        lines.extend(below.into_iter().flatten());
        if let Some(last) = lines.last_mut() {
            last.1.push(b')');
        }
        lines
    }
}

/// '`(let n` fills a line, then comes the body's first line after exactly 2 spaces, each later line after 2 spaces
/// more than its indent where the term was met, and `)` after the last'
fn write_binding(name: &[u8], body: &[Line], out: &mut Vec<u8>) {
    out.extend(b"(let ");
    out.extend(name);
    if let [(_, only)] = body {
        out.push(b' ');
        out.extend(only);
    } else {
        let more = |at: usize, indent: usize| if at == 0 { STEP } else { indent + STEP };
        for (at, (indent, text)) in body.iter().enumerate() {
            out.push(b'\n');
            out.extend(vec![b' '; more(at, *indent)]);
            out.extend(text);
        }
    }
    out.extend(b")\n");
}

fn write_lines(lines: &[Line], out: &mut Vec<u8>) {
    for (at, (indent, text)) in lines.iter().enumerate() {
        if at > 0 {
            out.push(b'\n');
            out.extend(vec![b' '; *indent]);
        }
        out.extend(text);
    }
}
