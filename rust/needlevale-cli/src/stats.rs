//! `stats`: what is in a table, the proved answer, and what is computed of the chosen term.

use crate::args::Stats;
use crate::source::Source;
use crate::stop::{broken, Done};
use crate::streams::say;
use needlevale::compute::{Chosen, Prices};
use needlevale::{ask, Best, Error, Mode, Query, Refusal, Root, Sort, Table, PROGRAM_OUTPUT};
use serde_json::{json, Value};
use std::time::{Duration, Instant};

pub fn run(stats: &Stats) -> Done<()> {
    let source = Source::read(&stats.table)?;
    let table = source.table()?;
    let rooted = stats.root.class.is_some() || stats.root.sort.is_some() || !source.names.roots.is_empty();
    let root = match rooted {
        true => Some(source.root(stats.root.sort.as_deref(), stats.root.class.as_deref())?),
        false => None,
    };
    let asked = match root {
        Some(root) => Some(Asked::of(&source, table, root)?),
        None => None,
    };
    if stats.json {
        return say(format!("{}\n", json_of(&source, table, &asked)));
    }
    let mut out = counts(&source, table);
    if let Some(asked) = &asked {
        out += &asked.lines(&source, table);
    }
    say(out)
}

fn counts(source: &Source, table: &Table) -> String {
    let base = table.sorts().iter().filter(|sort| **sort == Sort::Base).count();
    let usable = table.functions().iter().filter(|function| function.usable()).count();
    format!(
        "file        {} bytes, accepted by the proved reader\n\
         sorts       {} ({} eq, {base} base)\n\
         classes     {}\n\
         literals    {}\n\
         functions   {} ({usable} usable)\n\
         rows        {} ({} usable)\n",
        source.file.len(),
        table.sorts().len(),
        table.sorts().len() - base,
        table.classes(),
        table.literals().len(),
        table.functions().len(),
        table.rows().len(),
        usable_rows(table),
    )
}

fn usable_rows(table: &Table) -> usize {
    table.rows().iter().filter(|row| !row.subsumed && table.functions()[row.function].usable()).count()
}

/// A root asked about: the library's answer, and what is computed beside it.
pub struct Asked {
    pub root: Root,
    /// The proved answer, or its refusal.
    pub proved: Result<Best, Refusal>,
    pub chosen: Option<Chosen>,
    pub reached: usize,
    /// Where the two differ.
    pub differs: Option<String>,
    pub time: Duration,
}

impl Asked {
    pub fn of(source: &Source, table: &Table, root: Root) -> Done<Asked> {
        let start = Instant::now();
        let let_text = ask(&source.file, Query::new(Mode::Best, root), PROGRAM_OUTPUT);
        let time = start.elapsed();
        let proved = match let_text.and_then(|answer| answer.best()) {
            Ok(best) => Ok(best),
            Err(Error::Refused(refusal)) => Err(refusal),
            Err(other) => return Err(broken(other)),
        };
        if proved == Err(Refusal::BadRoot) {
            crate::asking::answer(source, Query::new(Mode::Best, root), PROGRAM_OUTPUT)?;
        }
        let prices = Prices::of(table, root.sort);
        let chosen = Chosen::of(table, &prices, root);
        let differs = match (&proved, &chosen) {
            (Ok(best), Some(chosen)) => Asked::compare(source, table, root, best, chosen)?,
            (Err(Refusal::NoTerm | Refusal::TooDear), None) | (Err(Refusal::NoRoom), Some(_)) => None,
            _ => Some("the proved library and the computed choice do not agree that there is a term".to_string()),
        };
        Ok(Asked { root, proved, chosen, reached: prices.scan.len(), differs, time })
    }

    /// The term itself is held to the plain text, where that has room.
    fn compare(source: &Source, table: &Table, root: Root, best: &Best, chosen: &Chosen) -> Done<Option<String>> {
        match ask(&source.file, Query::new(Mode::Plain, root), 1 << 20).and_then(|answer| answer.best()) {
            Ok(plain) => Ok(chosen.differs(table, &plain)),
            Err(Error::Refused(Refusal::NoRoom)) => {
                let same =
                    (chosen.cost, chosen.parts.len() as u64, chosen.passes) == (best.cost, best.terms, best.passes);
                Ok((!same).then(|| "the computed numbers are not the proved answer's".to_string()))
            }
            Err(other) => Err(broken(other)),
        }
    }

    fn lines(&self, source: &Source, table: &Table) -> String {
        let mut out = format!("root        {}\n", source.root_words(self.root));
        out += &format!("reached     {} usable rows\n", self.reached);
        out += &match &self.proved {
            Ok(best) => format!(
                "cost        {} as a tree, proved least\nterms       {} distinct, proved\npasses      {}, proved\n",
                best.cost, best.terms, best.passes
            ),
            Err(refusal) => format!("answer      {refusal}\n"),
        };
        if let Some(chosen) = &self.chosen {
            out += &format!(
                "graph cost  {} with shared parts paid once, computed\ntree size   {}, computed\ndepth       {}, computed\n",
                chosen.graph_cost(table),
                tree_size(chosen),
                chosen.depth()
            );
        }
        out += &format!("time        {} us, the library's call\n", self.time.as_micros());
        out + &match &self.differs {
            None => "compared    the computed term is the proved answer's\n".to_string(),
            Some(differs) => format!("compared    {differs}; please report this\n"),
        }
    }
}

fn tree_size(chosen: &Chosen) -> String {
    chosen.tree_size().map_or("over 2^128".to_string(), |size| size.to_string())
}

fn json_of(source: &Source, table: &Table, asked: &Option<Asked>) -> Value {
    let mut value = json!({
        "bytes": source.file.len(),
        "sorts": table.sorts().len(),
        "classes": table.classes(),
        "literals": table.literals().len(),
        "functions": table.functions().len(),
        "rows": table.rows().len(),
        "usable_rows": usable_rows(table),
    });
    if let Some(asked) = asked {
        value["root"] = json!({ "sort": asked.root.sort, "class": asked.root.value });
        value["reached_rows"] = json!(asked.reached);
        value["proved"] = match &asked.proved {
            Ok(best) => json!({ "cost": best.cost, "terms": best.terms, "passes": best.passes }),
            Err(refusal) => json!({ "refused": refusal.number(), "name": refusal.name() }),
        };
        if let Some(chosen) = &asked.chosen {
            value["computed"] = json!({
                "graph_cost": chosen.graph_cost(table).to_string(),
                "tree_size": tree_size(chosen),
                "depth": chosen.depth(),
            });
        }
        value["differs"] = json!(asked.differs);
        value["microseconds"] = json!(asked.time.as_micros() as u64);
    }
    value
}
