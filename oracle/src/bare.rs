//! The crate's `TermDag` without document 01's checks: single calls that it answers otherwise or not at all.

use crate::faults::caught;
use crate::util::{FreshGen, SymbolGen};
use crate::{Literal, Term, TermDag};

/// What a bare call did: its answer, or the panic's place and text.
fn said(call: impl FnOnce(&mut TermDag) -> String) -> String {
    let mut dag = TermDag::default();
    caught(|| call(&mut dag)).unwrap_or_else(|text| format!("panics: {text}"))
}

/// Each call on an empty store, what the Rust does, and document 01's refusal.
pub fn report() -> Vec<String> {
    let number = |id: usize| format!("gives term {id}");
    let calls = [
        ("app F 0", said(|dag| number(dag.app("F".into(), vec![0]))), "BadTerm"),
        ("app F 7", said(|dag| number(dag.app("F".into(), vec![7]))), "BadTerm"),
        ("variable %", said(|dag| number(dag.var(String::new()))), "BadName"),
        ("app % (an empty name)", said(|dag| number(dag.app(String::new(), vec![]))), "BadName"),
        (
            "app F with nine children",
            said(|dag| {
                let child = dag.lit(Literal::Int(0));
                number(dag.app("F".into(), vec![child; 9]))
            }),
            "BadSize",
        ),
        ("get 0", said(|dag| format!("gives {:?}", dag.get(0))), "BadTerm"),
        ("find literal 0", said(|dag| number(dag.lookup(&Term::Lit(Literal::Int(0))))), "Absent"),
        ("compare 0 0", said(|dag| format!("gives {:?}", dag.ast_cmp(0, 0))), "BadTerm"),
        ("compare 0 1", said(|dag| format!("gives {:?}", dag.ast_cmp(0, 1))), "BadTerm"),
        (
            "sort 0",
            said(|dag| {
                let mut list = [0];
                dag.sort_terms_by_ast(&mut list);
                format!("gives {list:?}")
            }),
            "BadTerm",
        ),
        ("plain 9 0", said(|dag| format!("gives {:?}", dag.to_string(0))), "BadTerm"),
        (
            "let 9 % t 0 1 0",
            said(|dag| format!("gives {:?}", dag.to_string_with_let(&mut SymbolGen::new(String::new()), 0))),
            "BadTerm",
        ),
        (
            "the first two let names of SymbolGen::new",
            said(|_| {
                let mut fresh = SymbolGen::new(String::new());
                let names: [String; 2] = [fresh.fresh("t"), fresh.fresh("t")];
                format!("are {names:?}")
            }),
            "the zero flag is an argument; the program leaves it off and prints t0",
        ),
    ];
    calls.into_iter().map(|(call, does, paper)| format!("{call}: the Rust {does}; document 01: {paper}\n")).collect()
}
