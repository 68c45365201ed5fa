//! The program `oracle`: its modes, each described in oracle/README.md.

use standin::modes::{self, End};
use std::process::ExitCode;

const USAGE: &str =
    "oracle needs one of these modes: run, answer, gen SEED N, gen short, gen flips, stats SEED N, terms, \
answer-terms, gen-terms SEED N, gen-orders SEED N, edges, record FOLDER, smallest, diff CASES EXPECTED GOT";

fn number<T: std::str::FromStr>(word: &str, what: &str) -> Result<T, End> {
    word.parse().map_err(|_| End::Usage(format!("{what} must be a whole number below 2^64, not '{word}'")))
}

fn mode(words: &[&str]) -> Result<(), End> {
    match words {
        ["run"] => modes::run(),
        ["answer"] => modes::answer(),
        ["gen", "short"] => modes::generate_short(),
        ["gen", "flips"] => modes::generate_flips(),
        ["gen", seed, n] => modes::generate(number(seed, "SEED")?, number(n, "N")?),
        ["stats", seed, n] => modes::stats(number(seed, "SEED")?, number(n, "N")?),
        ["terms"] => modes::terms(),
        ["answer-terms"] => modes::answer_terms(),
        ["gen-terms", seed, n] => modes::generate_terms(number(seed, "SEED")?, number(n, "N")?),
        ["gen-orders", seed, n] => modes::generate_orders(number(seed, "SEED")?, number(n, "N")?),
        ["edges"] => modes::edges(),
        ["record", folder] => modes::record(folder),
        ["smallest"] => modes::smallest(),
        ["diff", cases, expected, got] => modes::diff([cases, expected, got]),
        _ => Err(End::Usage(USAGE.into())),
    }
}

fn main() -> ExitCode {
    let words: Vec<String> = std::env::args().skip(1).collect();
    let words: Vec<&str> = words.iter().map(String::as_str).collect();
    match mode(&words) {
        Ok(()) => ExitCode::SUCCESS,
        Err(End::Usage(fault)) => {
            eprintln!("oracle: {fault}.");
            ExitCode::from(2)
        }
        Err(End::Fault(fault)) => {
            eprintln!("oracle: {fault}");
            ExitCode::FAILURE
        }
    }
}
