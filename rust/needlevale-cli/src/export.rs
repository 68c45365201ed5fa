//! `export`: a table as egraph-serialize's JSON. A row becomes a node, a class an e-class, a sort its type, a literal a node
//! of its own e-class.

use crate::args::Export;
use crate::source::Source;
use crate::stop::{refused, Done};
use crate::streams::write;
use needlevale::compute::children;
use needlevale::{Root, Sort, Table};
use serde_json::{json, Map, Value};

pub fn run(export: &Export) -> Done<()> {
    let source = Source::read(&export.table)?;
    let table = source.table()?;
    let (value, lost) = json_of(&source, table);
    let faults = lost.faults();
    if !faults.is_empty() {
        let faults = faults.join("; ");
        if !export.leave_out {
            return refused(format!(
                "{}: nothing is written, because {faults} (--leave-out leaves them out)",
                source.path
            ));
        }
        eprintln!("needlevale: {}: left out: {faults}", source.path);
    }
    let text = serde_json::to_string_pretty(&value).unwrap_or_default() + "\n";
    write(export.output.as_deref(), text.as_bytes())
}

/// Rows that JSON cannot hold.
#[derive(Default)]
struct Lost {
    barred: usize,
    childless: usize,
    costs: usize,
}

impl Lost {
    fn faults(&self) -> Vec<String> {
        let mut faults = Vec::new();
        if self.barred > 0 {
            faults.push(format!("{} rows are of unextractable or hidden functions, which JSON has not", self.barred));
        }
        if self.childless > 0 {
            faults.push(format!("{} rows name a class without a row, and JSON's children are nodes", self.childless));
        }
        if self.costs > 0 {
            faults.push(format!("{} rows cost over 2^53, which JSON's numbers do not hold exactly", self.costs));
        }
        faults
    }
}

fn json_of(source: &Source, table: &Table) -> (Value, Lost) {
    let mut lost = Lost::default();
    let kept = kept_rows(table, &mut lost);
    let class_id =
        |sort: usize, value: usize| format!("{}-{}", source.names.sort(sort), source.names.class(sort, value));
    let row_id = |row: usize| format!("{}-{row}", table.functions()[table.rows()[row].function].name);
    let node_of = |sort: usize, value: usize| match table.sorts()[sort] {
        Sort::Base => Some(format!("literal-{sort}-{value}")),
        Sort::Eq(_) => first_row(table, &kept, sort, value).map(row_id),
    };
    let mut nodes = Map::new();
    for sort in 0..table.sorts().len() {
        if table.sorts()[sort] != Sort::Base {
            continue;
        }
        for (value, literal) in table.literals().iter().enumerate() {
            let used = |row: &usize| children(table, &table.rows()[*row]).any(|child| child == (sort, value));
            if kept.iter().any(used) || source.names.roots.contains(&Root { sort, value }) {
                let node =
                    json!({ "op": literal.to_string(), "children": [], "eclass": class_id(sort, value), "cost": 1 });
                nodes.insert(format!("literal-{sort}-{value}"), node);
            }
        }
    }
    for number in &kept {
        let row = &table.rows()[*number];
        let function = &table.functions()[row.function];
        let below: Vec<String> = children(table, row).filter_map(|(sort, value)| node_of(sort, value)).collect();
        let mut node = json!({
            "op": function.name, "children": below, "eclass": class_id(function.output, row.output), "cost": function.head_cost(),
        });
        if row.subsumed {
            node["subsumed"] = Value::Bool(true);
        }
        nodes.insert(row_id(*number), node);
    }
    let mut data = Map::new();
    for (sort, kind) in table.sorts().iter().enumerate() {
        let values = if *kind == Sort::Base { table.literals().len() } else { kind.classes() };
        for value in 0..values {
            data.insert(class_id(sort, value), json!({ "type": source.names.sort(sort) }));
        }
    }
    let roots: Vec<String> = source.names.roots.iter().map(|root| class_id(root.sort, root.value)).collect();
    (json!({ "nodes": nodes, "root_eclasses": roots, "class_data": data }), lost)
}

/// The rows that JSON can hold: no row is kept whose child class keeps none.
fn kept_rows(table: &Table, lost: &mut Lost) -> Vec<usize> {
    let mut kept = Vec::new();
    for (number, row) in table.rows().iter().enumerate() {
        let function = &table.functions()[row.function];
        if !function.usable() {
            lost.barred += 1;
        } else if function.head_cost() > 1 << 53 {
            lost.costs += 1;
        } else {
            kept.push(number);
        }
    }
    loop {
        let held = |(sort, value): (usize, usize)| {
            table.sorts()[sort] == Sort::Base || first_row(table, &kept, sort, value).is_some()
        };
        let (stay, go): (Vec<usize>, Vec<usize>) =
            kept.iter().partition(|row| children(table, &table.rows()[**row]).all(held));
        if go.is_empty() {
            return kept;
        }
        lost.childless += go.len();
        kept = stay;
    }
}

fn first_row(table: &Table, kept: &[usize], sort: usize, class: usize) -> Option<usize> {
    let own = |row: &&usize| {
        let row = &table.rows()[**row];
        table.functions()[row.function].output == sort && row.output == class
    };
    kept.iter().find(own).copied()
}
