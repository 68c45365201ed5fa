//! The rows for calls on a lent store: adds, comparing, sorting; the library beside the Rust's own store.

use crate::rounds::{Side, rounds};
use crate::{Row, inputs, library, original, terms, time};
use std::hint::black_box;

const STORE_WHY: &str = "every call checks the whole lent store first, every record and every name of it, since it may \
be handed any (demand 1), and then looks at each term for the one; the Rust trusts its own store and finds a term by \
its hash";

/// Times as many adds as a store has room for, from an empty one.
pub fn adds(count: usize, name: &str) -> Result<Row, String> {
    let values = inputs::literals();
    let dag = original::store(&values);
    let mut store = library::Store::new();
    let numbers: Vec<i64> = values.iter().map(|v| store.add(*v)).collect();
    if !numbers.iter().copied().eq(0..values.len() as i64) || dag.size() != store.terms {
        return Err(format!("{name}: the stores differ; {} terms, and the Rust has {}", store.terms, dag.size()));
    }
    let sides: Vec<Side> = vec![
        Box::new(|| {
            let store = black_box(&mut store);
            store.terms = 0;
            for value in &values {
                black_box(store.add(*value));
            }
        }),
        Box::new(|| {
            black_box(original::store(black_box(&values)));
        }),
    ];
    let answer = format!("{} terms", dag.size());
    Ok(Row { name: name.to_string(), answer, took: rounds(count, sides), why: Some(STORE_WHY.into()) })
}

/// Times as many adds as a store has room for, of literals and applications, into a store of structs.
pub fn adds_of_structs(count: usize, name: &str) -> Result<Row, String> {
    let list = inputs::forest();
    let mut store = terms::Store::of(&list)?;
    let size = original::terms(&list).size();
    if store.size() != size as i64 {
        return Err(format!("{name}: the stores differ; {} terms, and the Rust has {size}", store.size()));
    }
    let sides: Vec<Side> = vec![
        Box::new(|| {
            black_box(store.fill(black_box(&list))).unwrap_or_default();
        }),
        Box::new(|| {
            black_box(original::terms(black_box(&list)));
        }),
    ];
    let answer = format!("{size} terms");
    Ok(Row { name: name.to_string(), answer, took: rounds(count, sides), why: Some(STORE_WHY.into()) })
}

/// Times how the tops of two chains compare, so many terms each, which differ at their ends.
pub fn comparing(count: usize, name: &str, depth: usize) -> Result<Row, String> {
    let list = inputs::chains(depth);
    let (mut store, dag) = (terms::Store::of(&list)?, original::terms(&list));
    let (first, second) = (list.len() - 2, list.len() - 1);
    let (ours, rust) = (store.compare(first, second), dag.ast_cmp(first, second) as i64);
    if ours != rust {
        return Err(format!("{name}: the orders differ; {ours}, and the Rust has {rust}"));
    }
    let why = check_why(count, &mut store);
    let sides: Vec<Side> = vec![
        Box::new(|| {
            black_box(store.compare(black_box(first), black_box(second)));
        }),
        Box::new(|| {
            black_box(dag.ast_cmp(black_box(first), black_box(second)));
        }),
    ];
    Ok(Row { name: name.to_string(), answer: rust.to_string(), took: rounds(count, sides), why: Some(why) })
}

/// Times the sort of a list of so many numbers of terms of a full store.
pub fn sorting(count: usize, name: &str, length: usize) -> Result<Row, String> {
    let list = inputs::forest();
    let (mut store, dag) = (terms::Store::of(&list)?, original::terms(&list));
    let (given, mut ours) = (inputs::shuffled(length), inputs::shuffled(length));
    let numbers: Vec<usize> = given.iter().map(|number| *number as usize).collect();
    let mut rust = numbers.clone();
    let status = store.sort(&mut ours);
    dag.sort_terms_by_ast(&mut rust);
    if status != 0 || !ours.iter().map(|number| *number as usize).eq(rust.iter().copied()) {
        return Err(format!("{name}: the sorted lists differ; status {status}"));
    }
    let why = check_why(count, &mut store);
    let sides: Vec<Side> = vec![
        Box::new(|| {
            ours.copy_from_slice(black_box(&given));
            black_box(store.sort(black_box(&mut ours)));
        }),
        Box::new(|| {
            rust.copy_from_slice(black_box(&numbers));
            dag.sort_terms_by_ast(black_box(&mut rust));
        }),
    ];
    let answer = format!("{} numbers", given.len());
    Ok(Row { name: name.to_string(), answer, took: rounds(count, sides), why: Some(why) })
}

/// How much of a call's time is the check of the store, which is all that `needlevale_size` does.
fn check_why(count: usize, store: &mut terms::Store) -> String {
    let check: Side = Box::new(|| {
        black_box(store.size());
    });
    let took = rounds(count, vec![check]);
    format!(
        "every call checks the whole lent store first, since it may be handed any (demand 1), which alone takes {} here; \
         the Rust trusts its own store",
        time(took[0].seconds)
    )
}
