//! Asks a question through the safe wrapper `rust/needlevale`: document 01's worked example, or a file's first class.
//!
//!   cargo run --release --example caller [-- TABLE CLASS]        in rust/, on x86-64
//!
//! The answer goes to standard output, exit status 0; a refusal to standard error, 1; wrong usage is 2.

use needlevale::{best, Best, Draft, Error, Function, Root, Row, Sort};
use std::process::ExitCode;

/// Document 01's worked example: five, five and five, and twice that.
fn worked_example() -> Draft {
    let num = Function { name: "Num".into(), arguments: vec![1], ..Function::default() };
    let add = Function { name: "Add".into(), cost: Some(2), arguments: vec![0, 0], ..Function::default() };
    let row = |function, arguments: &[usize], output| Row {
        function,
        arguments: arguments.to_vec(),
        output,
        subsumed: false,
    };
    Draft {
        sorts: vec![Sort::Eq(3), Sort::Base],
        literals: vec![5],
        functions: vec![num, add],
        rows: vec![row(0, &[0], 0), row(1, &[0, 0], 1), row(1, &[1, 1], 2)],
    }
}

fn asked(words: &[String]) -> Result<(Vec<u8>, usize), String> {
    match words {
        [] => {
            let table = worked_example().build().map_err(|fault| fault.to_string())?;
            Ok((table.encode().to_vec(), 2))
        }
        [path, class] => {
            let file = std::fs::read(path).map_err(|fault| format!("'{path}' cannot be read: {fault}"))?;
            let class = class.parse().map_err(|_| format!("a class is a number, not '{class}'"))?;
            Ok((file, class))
        }
        _ => Err("give a table file and a class, or nothing for the worked example".to_string()),
    }
}

fn main() -> ExitCode {
    let words: Vec<String> = std::env::args().skip(1).collect();
    let (file, value) = match asked(&words) {
        Ok(asked) => asked,
        Err(fault) => {
            eprintln!("caller: {fault}");
            return ExitCode::from(2);
        }
    };
    match best(&file, Root { sort: 0, value }) {
        Ok(Best { cost, terms, passes, text, .. }) => {
            println!("best {cost} {terms} {passes}\n{text}");
            ExitCode::SUCCESS
        }
        Err(Error::Refused(refusal)) => {
            eprintln!("refused: {} ({})", refusal.name(), refusal.number());
            ExitCode::FAILURE
        }
        Err(other) => {
            eprintln!("caller: {other}");
            ExitCode::from(2)
        }
    }
}
