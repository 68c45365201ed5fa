//! The program `reference`: a stream of cases on standard input, document 01's answers as a stream on standard output.
//!
//! `reference terms` does the same for scripts of calls on a term store.

use paper::{program, script, stream};
use std::io::{self, BufWriter, Write};
use std::process::ExitCode;

fn answer(terms: bool, item: &[u8]) -> Result<Vec<u8>, String> {
    if terms { Ok(script::write_answers(&script::run(&script::read(item)?).0)) } else { Ok(program::answer(item)) }
}

fn run() -> Result<(), String> {
    let words: Vec<String> = std::env::args().skip(1).collect();
    let terms = match &words[..] {
        [] => false,
        [word] if word == "terms" => true,
        _ => return Err("reference takes no argument, or the one word 'terms' for a stream of scripts".into()),
    };
    let bytes = stream::input().map_err(|e| format!("standard input cannot be read: {e}"))?;
    let mut out = BufWriter::new(io::stdout().lock());
    for item in stream::items(&bytes)? {
        stream::put(&mut out, &answer(terms, item)?).map_err(|e| format!("standard output is gone: {e}"))?;
    }
    out.flush().map_err(|e| format!("standard output is gone: {e}"))
}

fn main() -> ExitCode {
    match run() {
        Ok(()) => ExitCode::SUCCESS,
        Err(fault) => {
            eprintln!("reference: {fault}.");
            ExitCode::from(2)
        }
    }
}
