//! The table of stacks: what each call of the boundary takes on its deepest inputs.

use crate::terms::Store;
use crate::{inputs, library, said, stack};

/// Room for the let text of the deepest term, whose lines are indented further and further.
const ROOM: usize = 1 << 22;

/// Prints a row; the call must tell what is expected of it.
fn row(kind: &str, call: &str, input: &str, made: &mut dyn FnMut() -> bool) -> Result<(), String> {
    let mut expected = false;
    let bytes = stack::used(&mut || expected = made())?;
    if !expected {
        return Err(format!("needlevale_{call} on {input}: not the answer that was expected"));
    }
    println!("| `needlevale_{call}` | {input}{} | {bytes} |", said(kind));
    Ok(())
}

pub fn table(kind: &str) -> Result<(), String> {
    println!("| Call | Input | Stack, bytes |");
    println!("|---|---|---|");
    // SAFETY: it takes nothing.
    row(kind, "version", "nothing", &mut || unsafe { needlevale_sys::needlevale_version() } > 0)?;
    let mut output = vec![0; ROOM];
    for (mode, input) in inputs::deepest() {
        let name = format!("a table 512 classes deep: {mode}");
        row(kind, "answer", &name, &mut || library::answer(&input, &mut output) > 0)?;
    }
    let long = inputs::longest();
    row(kind, "answer", "the longest file", &mut || library::answer(&long, &mut output) == -11)?;
    row(kind, "answer", "no input", &mut || library::answer(&[], &mut output) == -1)?;
    let [(_, deepest), ..] = inputs::deepest();
    let file = &deepest[3..];
    // SAFETY: a vector valid for its length.
    let read = || unsafe { needlevale_sys::needlevale_read(long[3..].as_ptr(), long.len() - 3) };
    row(kind, "read", "the longest file", &mut || read().rows == 1024)?;
    row(kind, "best", "a table 512 classes deep", &mut || Store::new().best(file, 511) == 511)?;
    row(kind, "variants", "a table 512 classes deep", &mut || Store::new().variants(file, 511) == 2)?;
    on_stores(kind, &mut output)
}

/// The calls on a store: a term 1,024 deep, or 1,023 where one more is added.
fn on_stores(kind: &str, output: &mut [u8]) -> Result<(), String> {
    let (full, most) = ("a term 1,024 deep", "a term 1,023 deep");
    let mut store = Store::of(&inputs::tower(1024))?;
    row(kind, "plain_text", full, &mut || store.plain_text(1023, output) > 0)?;
    row(kind, "let_text", full, &mut || store.let_text(1023, output) > 0)?;
    row(kind, "size", full, &mut || store.size() == 1024)?;
    row(kind, "get", full, &mut || store.get(1023) == 2)?;
    let (two, mut chains) = ("two chains of 512 terms that differ at their ends", Store::of(&inputs::chains(512))?);
    row(kind, "compare", two, &mut || chains.compare(1023, 1022) == 1)?;
    let mut list: Vec<u64> = (0..1024).rev().collect();
    row(kind, "sort", two, &mut || chains.sort(&mut list) == 0 && list[..2] == [0, 1])?;
    row(kind, "find_literal", full, &mut || store.find_literal(0) == 0)?;
    row(kind, "find_variable", full, &mut || store.find_variable("x") == -15)?;
    row(kind, "find_application", full, &mut || store.find_application("S", &[1022]) == 1023)?;
    let of = || Store::of(&inputs::tower(1023));
    let (mut a, mut b, mut c, mut flat) = (of()?, of()?, of()?, library::Store::new());
    row(kind, "add_literal", most, &mut || a.add_literal(1) == 1023)?;
    row(kind, "add_variable", most, &mut || b.add_variable("x") == 1023)?;
    row(kind, "add_application", most, &mut || c.add_application("S", &[1022]) == 1023)?;
    let (last, others) = (1 << 60, inputs::literals());
    others[..1023].iter().for_each(|value| _ = flat.add(*value));
    row(kind, "add_literal_flat", "1,023 literals", &mut || flat.add(last) == 1023)
}
