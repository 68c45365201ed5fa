//! A store of term structs through the C boundary (rust/needlevale-sys), with the calls on it.
//!
//! A call's result is minus a refusal's number where it is refused, 0 or what it tells where it is not.

use crate::inputs::Made;
use needlevale_sys::*;

/// A store as it is lent, with room for all that document 01 allows.
pub struct Store {
    terms: Vec<Term>,
    names: Vec<Entry>,
    term_count: usize,
    name_count: usize,
}

/// A call on a store: the store's words, then those of the call.
macro_rules! on {
    ($store:expr, $call:ident $(, $word:expr)*) => {{
        let Store { terms, names, term_count, name_count } = $store;
        // SAFETY: two vectors valid for their lengths, which overlap neither each other nor what else is lent.
        unsafe {
            $call(terms.as_mut_ptr(), terms.len(), names.as_mut_ptr(), names.len(), *term_count, *name_count $(, $word)*)
        }
    }};
}

impl Store {
    pub fn new() -> Self {
        Store { terms: vec![Term::default(); 1024], names: vec![[0; NAME]; 128], term_count: 0, name_count: 0 }
    }

    /// With these terms in it, each under the number of its place.
    pub fn of(list: &[Made]) -> Result<Self, String> {
        let mut store = Store::new();
        store.fill(list)?;
        Ok(store)
    }

    /// From nothing in use, adds the terms one by one.
    pub fn fill(&mut self, list: &[Made]) -> Result<(), String> {
        (self.term_count, self.name_count) = (0, 0);
        for (place, made) in list.iter().enumerate() {
            let added = match made {
                Made::Literal(value) => self.add_literal(*value),
                Made::Application(name, children) => self.add_application(name, children),
            };
            if added != place as i64 {
                return Err(format!("term {place} is added as {added}"));
            }
        }
        Ok(())
    }

    fn added(&mut self, added: Added) -> i64 {
        (self.term_count, self.name_count) = (added.term_count, added.name_count);
        if added.status == 0 { added.term as i64 } else { added.status }
    }

    pub fn add_literal(&mut self, value: i64) -> i64 {
        let added = on!(self, needlevale_add_literal, value);
        self.added(added)
    }

    pub fn add_variable(&mut self, name: &str) -> i64 {
        let added = on!(self, needlevale_add_variable, name.as_ptr(), name.len());
        self.added(added)
    }

    pub fn add_application(&mut self, name: &str, children: &[u64]) -> i64 {
        let added = on!(self, needlevale_add_application, name.as_ptr(), name.len(), children.as_ptr(), children.len());
        self.added(added)
    }

    pub fn find_literal(&mut self, value: i64) -> i64 {
        told(on!(self, needlevale_find_literal, value))
    }

    pub fn find_variable(&mut self, name: &str) -> i64 {
        told(on!(self, needlevale_find_variable, name.as_ptr(), name.len()))
    }

    pub fn find_application(&mut self, name: &str, children: &[u64]) -> i64 {
        told(on!(self, needlevale_find_application, name.as_ptr(), name.len(), children.as_ptr(), children.len()))
    }

    /// How many terms there are: the check of the store, and no more.
    pub fn size(&mut self) -> i64 {
        told(on!(self, needlevale_size))
    }

    /// The kind of a term.
    pub fn get(&mut self, term: usize) -> i64 {
        let got = on!(self, needlevale_get, term);
        if got.status == 0 { got.term.kind as i64 } else { got.status }
    }

    /// -1, 0 or 1; a refusal is below.
    pub fn compare(&mut self, first: usize, second: usize) -> i64 {
        let Order { status, order } = on!(self, needlevale_compare, first, second);
        if status == 0 { order } else { status - 1 }
    }

    pub fn sort(&mut self, list: &mut [u64]) -> i64 {
        on!(self, needlevale_sort, list.as_mut_ptr(), list.len())
    }

    pub fn plain_text(&mut self, term: usize, output: &mut [u8]) -> i64 {
        on!(self, needlevale_plain_text, term, output.as_mut_ptr(), output.len())
    }

    pub fn let_text(&mut self, term: usize, output: &mut [u8]) -> i64 {
        let hint = "t";
        let (length, output) = (output.len(), output.as_mut_ptr());
        on!(self, needlevale_let_text, term, hint.as_ptr(), 0, hint.as_ptr(), hint.len(), 0, false, output, length)
            .length
    }

    /// The best term of a class of sort 0, in a store with nothing in use.
    pub fn best(&mut self, file: &[u8], class: u64) -> i64 {
        let Store { terms, names, .. } = self;
        // SAFETY: as above.
        let best = unsafe {
            let (terms_length, names_length) = (terms.len(), names.len());
            let (terms, names) = (terms.as_mut_ptr(), names.as_mut_ptr());
            needlevale_best(file.as_ptr(), file.len(), 0, class, terms, terms_length, names, names_length, 0, 0)
        };
        if best.status == 0 { best.term as i64 } else { best.status }
    }

    /// How many variants a class of sort 0 has, likewise.
    pub fn variants(&mut self, file: &[u8], class: u64) -> i64 {
        let Store { terms, names, .. } = self;
        let (mut costs, mut found) = (vec![0; 255], vec![0; 255]);
        // SAFETY: as above.
        let kept = unsafe {
            let (terms_length, names_length) = (terms.len(), names.len());
            let (terms, names) = (terms.as_mut_ptr(), names.as_mut_ptr());
            let (costs_at, found_at) = (costs.as_mut_ptr(), found.as_mut_ptr());
            needlevale_variants(
                file.as_ptr(),
                file.len(),
                0,
                class,
                255,
                terms,
                terms_length,
                names,
                names_length,
                0,
                0,
                costs_at,
                255,
                found_at,
                255,
            )
        };
        if kept.status == 0 { kept.count as i64 } else { kept.status }
    }
}

fn told(number: Number) -> i64 {
    if number.status == 0 { number.number as i64 } else { number.status }
}
