//! What the modes of the oracle do: standard input and files in, streams and counts out.

use crate::faults::Fault;
use crate::program::{self, Outcome};
use crate::tally::Tally;
use crate::{record, smallest, terms};
use paper::edges::Asked;
use paper::refusal::Refusal;
use paper::{generate, script, stream};
use std::io::{self, BufWriter, Write};

/// What ends a mode early: a fault of the caller (exit status 2), or one that the oracle was there to find (1).
pub enum End {
    Usage(String),
    Fault(String),
}

impl From<String> for End {
    fn from(fault: String) -> Self {
        End::Usage(fault)
    }
}

fn input() -> Result<Vec<u8>, End> {
    stream::input().map_err(|e| End::Usage(format!("standard input cannot be read: {e}")))
}

fn written(done: io::Result<()>) -> Result<(), End> {
    done.map_err(|e| End::Usage(format!("standard output cannot be written: {e}")))
}

fn print(bytes: &[u8]) -> Result<(), End> {
    written(io::stdout().write_all(bytes))
}

/// Writes a stream of items to standard output.
fn write_all(items: impl Iterator<Item = Vec<u8>>) -> Result<(), End> {
    let mut out = BufWriter::new(io::stdout().lock());
    for item in items {
        written(stream::put(&mut out, &item))?;
    }
    written(out.flush())
}

fn tell(fault: &Fault, place: &str) {
    eprintln!("oracle: {place}the Rust: {}; the answer is document 01's.", fault.said());
}

pub fn run() -> Result<(), End> {
    let outcome = program::checked(&input()?).map_err(End::Fault)?;
    if let Some(fault) = &outcome.fault {
        tell(fault, "");
    }
    print(&outcome.answer)
}

/// Checks one case; a hard error carries its input in hex.
fn checked(index: usize, case: &[u8]) -> Result<Outcome, End> {
    program::checked(case).map_err(|what| End::Fault(format!("case {index}, input {}: {what}", stream::hex(case))))
}

/// Answers one script; a hard error carries it whole.
fn checked_script(index: usize, text: &[u8], tally: &mut Tally) -> Result<Vec<u8>, End> {
    let script = script::read(text).map_err(|e| End::Usage(format!("script {index}: {e}")))?;
    let fault = |what| End::Fault(format!("script {index}: {what}\n{}", String::from_utf8_lossy(text)));
    let (answers, faults) = terms::answers(&script).map_err(fault)?;
    answers.iter().for_each(|a| tally.count_call(a));
    faults.iter().for_each(|f| tally.count_fault(f));
    Ok(script::write_answers(&answers))
}

/// How many faults of a kind are told one by one; all are counted.
const TOLD: usize = 3;

pub fn answer() -> Result<(), End> {
    let bytes = input()?;
    let mut tally = Tally::default();
    let mut answers = Vec::new();
    for (index, case) in stream::items(&bytes)?.into_iter().enumerate() {
        let outcome = checked(index, case)?;
        tally.count(&outcome);
        if let Some(fault) = &outcome.fault
            && tally.seen(fault) <= TOLD
        {
            tell(fault, &format!("case {index}: "));
        }
        answers.push(outcome.answer);
    }
    eprintln!("oracle: {} cases; {}", answers.len(), tally.refusals(Refusal::of_program));
    eprintln!("oracle: faults of the Rust: {}", tally.faults());
    write_all(answers.into_iter())
}

pub fn generate(seed: u64, n: usize) -> Result<(), End> {
    write_all((0..n).map(|index| generate::case(seed, index)))
}

pub fn generate_short() -> Result<(), End> {
    write_all(generate::every_short(&generate::worked_example()).into_iter())
}

pub fn generate_flips() -> Result<(), End> {
    write_all(generate::every_flip(&generate::worked_example()))
}

pub fn generate_terms(seed: u64, n: usize) -> Result<(), End> {
    write_all((0..n).map(|index| generate::script(seed, index).write().into_bytes()))
}

/// Scripts of request 3, each with 100 comparisons and 10 sorts.
pub fn generate_orders(seed: u64, n: usize) -> Result<(), End> {
    write_all((0..n).map(|index| generate::orders::orders(seed, index).write().into_bytes()))
}

/// Counts over `n` cases and, for what only the calls on a store can refuse, `n` / 8 scripts; none may be zero.
pub fn stats(seed: u64, n: usize) -> Result<(), End> {
    let mut tally = Tally::default();
    for index in 0..n {
        tally.count_category(generate::category(index));
        tally.count(&checked(index, &generate::case(seed, index))?);
    }
    println!("{n} cases of seed {seed}: the Rust and document 01 agree on each, or the Rust has a fault");
    println!("categories: {}", tally.categories());
    println!("{}", tally.refusals(Refusal::of_program));
    println!("faults of the Rust: {}", tally.faults());
    let mut calls = Tally::default();
    for index in 0..n / 8 {
        checked_script(index, generate::script(seed, index).write().as_bytes(), &mut calls)?;
    }
    println!("{} scripts of {} calls: {}", n / 8, calls.calls(), calls.refusals(Refusal::of_store));
    println!("faults of the Rust: {}", calls.faults());
    let missing = [tally.missing(Refusal::of_program), calls.missing(Refusal::of_store)].concat();
    if missing.is_empty() && tally.every_category() {
        return Ok(());
    }
    Err(End::Fault(format!("{n} cases leave a category or the refusals {missing:?} without a case; take more")))
}

pub fn terms() -> Result<(), End> {
    print(&checked_script(0, &input()?, &mut Tally::default())?)
}

pub fn answer_terms() -> Result<(), End> {
    let bytes = input()?;
    let mut tally = Tally::default();
    let mut answers = Vec::new();
    for (index, text) in stream::items(&bytes)?.into_iter().enumerate() {
        answers.push(checked_script(index, text, &mut tally)?);
    }
    eprintln!("oracle: {} scripts of {} calls; {}", answers.len(), tally.calls(), tally.refusals(Refusal::of_store));
    eprintln!("oracle: faults of the Rust: {}", tally.faults());
    write_all(answers.into_iter())
}

/// Checks every edge on both sides and prints the list.
pub fn edges() -> Result<(), End> {
    let edges = paper::edges::all();
    for edge in &edges {
        let given = match &edge.asked {
            Asked::Input(bytes) => program::checked(bytes).map_err(End::Fault)?.answer,
            Asked::Script(text) => checked_script(0, text.as_bytes(), &mut Tally::default())?,
        };
        if given != edge.answer.as_bytes() {
            let given = String::from_utf8_lossy(&given);
            return Err(End::Fault(format!("{}: expected\n{}but got\n{given}", edge.title, edge.answer)));
        }
    }
    print(paper::edges::write(&edges).as_bytes())
}

pub fn record(folder: &str) -> Result<(), End> {
    let folder = std::path::Path::new(folder);
    if !folder.is_dir() {
        return Err(End::Usage(format!("FOLDER must be a folder to write into, and {} is none", folder.display())));
    }
    for (name, bytes) in record::files().map_err(End::Fault)? {
        let path = folder.join(name);
        std::fs::write(&path, bytes).map_err(|e| format!("{} cannot be written: {e}", path.display()))?;
    }
    Ok(())
}

pub fn smallest() -> Result<(), End> {
    print(smallest::report().join("\n").as_bytes())
}

/// An answer as text, with what is not text escaped, and in hex.
fn shown(answer: &[u8]) -> String {
    let lines: Vec<String> = answer.split(|b| *b == b'\n').map(|line| line.escape_ascii().to_string()).collect();
    format!("(hex {})\n{}", stream::hex(answer), lines.join("\n"))
}

/// Compares two streams of answers to the same cases; the first difference is told with its input in hex.
pub fn diff(paths: [&str; 3]) -> Result<(), End> {
    let read = |path| std::fs::read(path).map_err(|e| format!("the file {path} cannot be read: {e}"));
    let [cases, expected, got] = [read(paths[0])?, read(paths[1])?, read(paths[2])?];
    let (cases, expected) = (stream::items(&cases)?, stream::items(&expected)?);
    let got = stream::items(&got).map_err(|e| End::Fault(format!("the program's answers are no stream: {e}")))?;
    for (index, case) in cases.iter().enumerate() {
        let (Some(want), found) = (expected.get(index), got.get(index)) else {
            return Err(End::Usage(format!("{} has no answer for case {index}", paths[1])));
        };
        if Some(want) != found {
            let found = found.map_or("nothing".into(), |found| shown(found));
            let (hex, want) = (stream::hex(case), shown(want));
            return Err(End::Fault(format!("case {index} differs\ninput {hex}\nexpected {want}\ngot {found}")));
        }
    }
    if got.len() != cases.len() {
        return Err(End::Fault(format!("{} cases, but the program gave {} answers", cases.len(), got.len())));
    }
    println!("{} cases, all equal", cases.len());
    Ok(())
}
