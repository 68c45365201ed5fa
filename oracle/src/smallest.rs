//! A search for the smallest input of each fault of the Rust, for docs/DIFFERENCES.md.
//!
//! Costs: all tables of one eq sort and at most one base sort, in order of their length in bits. Sizes and lengths: all
//! towers of one leaf and one function. What is found is then run through the Rust itself.

mod tables;
mod towers;

use crate::faults::{Fault, caught};
use crate::program::{Stop, by_the_rust, output};
use paper::cost::Priced;
use paper::stream::hex;
use paper::table::{BEST_LET, BEST_PLAIN, Query, Table, input};
use std::hint::black_box;
use tables::first;
use towers::{Tower, free_towers, smallest_tower};

/// Whether this build's sums wrap in silence.
pub fn wraps() -> bool {
    caught(|| black_box(usize::MAX) + black_box(1)).is_ok()
}

/// What the Rust does with an input.
fn rust_says(input: &[u8]) -> String {
    match by_the_rust(input) {
        Ok(text) => format!("prints {:?}", String::from_utf8_lossy(&text)),
        Err(Stop::Refused(refusal)) => format!("has no limit where document 01 has {refusal:?}"),
        Err(Stop::Fault(fault @ (Fault::DearCost | Fault::LongText))) => format!("gives an answer: {}", fault.said()),
        Err(Stop::Fault(fault)) => format!("panics: {}", fault.said()),
        Err(Stop::Mismatch(what)) => what,
    }
}

fn told(title: &str, input: &[u8]) -> String {
    let paper = paper::program::answer(input);
    let paper = String::from_utf8_lossy(&paper);
    format!(
        "{title}\n  input ({} bytes): {}\n  the Rust {}\n  document 01 {paper:?}\n",
        input.len(),
        hex(input),
        rust_says(input)
    )
}

fn described(table: &Table, class: usize) -> String {
    let mut out = String::new();
    for row in &table.rows {
        let f = &table.functions[row.function];
        let (kids, output) = row.cells.split_at(f.inputs.len());
        let kids: Vec<String> = kids.iter().map(usize::to_string).collect();
        out += &format!("{}({})->{}, ", String::from_utf8_lossy(&f.name), kids.join(","), output[0]);
    }
    for f in &table.functions {
        out += &format!("cost of {} {:?}, ", String::from_utf8_lossy(&f.name), f.cost);
    }
    format!("{out}ask class {class}")
}

/// The faults about costs.
fn costs() -> Vec<String> {
    let dear = |priced: &Priced, class| priced.cost(0, class) == Some(u64::MAX);
    let edgeless = |priced: &Priced, class| dear(priced, class) && priced.edge(0, class).is_none();
    let mut out = Vec::new();
    for (title, most, found) in
        [("a cost of 2^64-1", 200, first(200, dear)), ("a class without an edge", 290, first(290, edgeless))]
    {
        out.push(match found {
            Some((tried, table, class)) => {
                let query = Query { mode: BEST_LET, sort: 0, value: class, n: 0 };
                let what = format!(
                    "{title}: {} ({} bits; shape {tried} in order of bits)",
                    described(&table, class),
                    table.bits()
                );
                told(&what, &input(&query, &table))
            }
            None => format!("{title}: no table of at most {most} bits has one\n"),
        });
    }
    out
}

/// A tree size past 64 bits, in a build that checks its sums.
fn overflow() -> String {
    let panics = |_: &Tower, input: &[u8]| matches!(by_the_rust(input), Err(Stop::Fault(Fault::SizeOverflow(_))));
    let Some(tower) = smallest_tower(free_towers(false), BEST_LET, panics) else {
        return "no tower overflows\n".into();
    };
    let title = format!("a tree size past 64 bits: arity {}, {} levels above the leaf", tower.arity, tower.levels);
    told(&title, &tower.input(BEST_LET))
}

/// A wrong binding, in a build whose sums wrap.
fn wrong_binding() -> String {
    let wrong = |_: &Tower, input: &[u8]| by_the_rust(input).is_ok_and(|text| text != paper::program::answer(input));
    let Some(tower) = smallest_tower(free_towers(true), BEST_LET, wrong) else {
        return "no tower is bound wrongly\n".into();
    };
    let title = format!(
        "a size that wraps: arity {}, {} levels above the leaf, {} places of the last name the leaf, then a root",
        tower.arity, tower.levels, tower.low
    );
    told(&title, &tower.input(BEST_LET))
}

/// A plain text that does not fit into document 01's output.
fn long_text() -> String {
    let long = |_: &Tower, input: &[u8]| output(input).is_ok_and(|text| text.len() > 16_384);
    let names = [1, 2, 3, 8, 31].into_iter().flat_map(|leaf| [1, 2, 3, 8, 31].map(|head| (leaf, head)));
    let towers = names.flat_map(|(leaf, head)| {
        (2..=8).flat_map(move |arity| {
            (1..=13).map(move |levels| Tower { leaf, head, arity, levels, low: 0, free: false, roof: false })
        })
    });
    let Some(tower) = smallest_tower(towers, BEST_PLAIN, long) else { return "no tower is too long\n".into() };
    let input = tower.input(BEST_PLAIN);
    let made = output(&input).map_or(0, |text| text.len());
    let title = format!(
        "an output past 16,384 bytes: arity {}, {} levels above the leaf, names of {} and {} bytes; \
         the Rust makes {made}",
        tower.arity, tower.levels, tower.leaf, tower.head
    );
    told(&title, &input)
}

/// All of it, as text; what it can show depends on how it was built.
pub fn report() -> Vec<String> {
    if wraps() {
        return vec![wrong_binding()];
    }
    let mut out = costs();
    out.extend([overflow(), long_text()]);
    out.extend(crate::bare::report());
    out
}
