//! `bench`: every table of a folder, one line each. Costs, terms and passes are the proved library's; graph costs are
//! computed.

use crate::args::Bench;
use crate::import;
use crate::source::Source;
use crate::stats::Asked;
use crate::stop::{failed, usage, Done};
use crate::streams::{read, reason, say};
use needlevale::{Refusal, Root};
use serde_json::json;
use std::io::{IsTerminal, Write};

pub fn run(bench: &Bench) -> Done<()> {
    let files = tables(&bench.folder)?;
    if files.is_empty() {
        return usage(format!("'{}' has no file that ends in .bin, .txt or .json", bench.folder));
    }
    if !bench.json {
        say(format!(
            "{:24} {:>8} {:>6} {:>12} {:>12} {:>6} {:>10}\n",
            "table", "classes", "rows", "tree", "graph", "passes", "us"
        ))?;
    }
    let mut refused = 0;
    let bar = std::io::stderr().is_terminal();
    for (at, path) in files.iter().enumerate() {
        if bar {
            eprint!("\r[{:30}] {at} of {}", "#".repeat(at * 30 / files.len()), files.len());
            let _ = std::io::stderr().flush();
        }
        let line = line_of(bench, path);
        if bar {
            eprint!("\r\x1b[K");
        }
        match line {
            Ok(line) => say(line)?,
            Err(stop) if stop.status == crate::stop::FAILED => return Err(stop),
            Err(stop) => {
                refused += 1;
                eprintln!("needlevale: {}", stop.sentence);
            }
        }
    }
    match refused {
        0 => Ok(()),
        refused => crate::stop::refused(format!("{refused} of {} files gave no answer", files.len())),
    }
}

fn tables(folder: &str) -> Done<Vec<String>> {
    let entries = match std::fs::read_dir(folder) {
        Ok(entries) => entries,
        Err(fault) => return failed(format!("'{folder}' cannot be read: {}", reason(&fault))),
    };
    let mut files = Vec::new();
    for entry in entries {
        match entry {
            Ok(entry) => files.push(entry.path()),
            Err(fault) => return failed(format!("'{folder}' cannot be read: {}", reason(&fault))),
        }
    }
    let kind =
        |path: &std::path::PathBuf| path.extension().is_some_and(|end| end == "bin" || end == "txt" || end == "json");
    files.retain(kind);
    files.sort();
    Ok(files.iter().map(|path| path.to_string_lossy().into_owned()).collect())
}

fn line_of(bench: &Bench, path: &str) -> Done<String> {
    let source = match path.ends_with(".json") {
        true => {
            let bytes = read(path, import::LONGEST_JSON)?;
            Source::of_named(path, import::table_of(path, &bytes, 1.0)?.0)?
        }
        false => Source::read(path)?,
    };
    let table = source.table()?;
    let root = match (&bench.root.class, source.names.roots.first()) {
        (None, None) => Root { sort: 0, value: 0 },
        (None, Some(first)) => *first,
        _ => source.root(bench.root.sort.as_deref(), bench.root.class.as_deref())?,
    };
    let mut asked = Asked::of(&source, table, root)?;
    for _ in 1..bench.rounds {
        asked.time = asked.time.min(Asked::of(&source, table, root)?.time);
    }
    if let Some(differs) = &asked.differs {
        return failed(format!("{path}: {differs}; please report this"));
    }
    let name = path.rsplit('/').next().unwrap_or(path);
    let graph = asked.chosen.as_ref().map(|chosen| chosen.graph_cost(table));
    if bench.json {
        let proved = asked.proved.as_ref().ok();
        return Ok(json!({
            "name": name, "classes": table.classes(), "rows": table.rows().len(), "root": source.root_words(root),
            "tree": proved.map(|best| best.cost), "dag": graph.map(|cost| cost.to_string()),
            "passes": proved.map(|best| best.passes), "micros": asked.time.as_micros() as u64,
            "refused": asked.proved.as_ref().err().map(|refusal| refusal.number()),
        })
        .to_string()
            + "\n");
    }
    let (tree, passes) = match &asked.proved {
        Ok(best) => (best.cost.to_string(), best.passes.to_string()),
        Err(refusal) => (Refusal::name(*refusal).to_string(), "-".to_string()),
    };
    let graph = graph.map_or("-".to_string(), |cost| cost.to_string());
    Ok(format!(
        "{name:24} {:>8} {:>6} {tree:>12} {graph:>12} {passes:>6} {:>10}\n",
        table.classes(),
        table.rows().len(),
        asked.time.as_micros()
    ))
}
