//! `draw`: a table or a term in Graphviz's DOT. The choice that is marked is computed, and held to the proved answer.

use crate::args::Draw;
use crate::asking::answer;
use crate::source::Source;
use crate::stats::Asked;
use crate::stop::{failed, usage, Done};
use crate::streams::{reason, write};
use needlevale::compute::{children, head_cost, Chosen, Part, Prices};
use needlevale::{Mode, Query, Refusal, Root, Row, Sort, Table, PROGRAM_OUTPUT};
use std::collections::HashSet;
use std::io::Write;
use std::process::{Command, Stdio};

pub fn run(draw: &Draw) -> Done<()> {
    let source = Source::read(&draw.table)?;
    let table = source.table()?;
    let rooted = draw.root.class.is_some() || draw.root.sort.is_some() || !source.names.roots.is_empty();
    let asked = match rooted {
        true => {
            let root = source.root(draw.root.sort.as_deref(), draw.root.class.as_deref())?;
            Some(Asked::of(&source, table, root)?)
        }
        false => None,
    };
    if let Some(differs) = asked.as_ref().and_then(|asked| asked.differs.as_ref()) {
        return failed(format!("{}: {differs}; nothing is drawn; please report this", source.path));
    }
    let dot = match (draw.term, &asked) {
        (false, asked) => graph(&source, table, asked.as_ref()),
        (true, None) => return usage("a term is drawn of a class: say --class C"),
        (true, Some(asked)) => match &asked.chosen {
            Some(chosen) => term(table, chosen, &source.root_words(asked.root)),
            None => {
                let query = Query::new(Mode::Best, asked.root);
                return answer(&source, query, PROGRAM_OUTPUT).and_then(|_| failed("the computed choice has no term"));
            }
        },
    };
    let kind = draw.output.as_deref().and_then(|path| path.rsplit_once('.')).map(|(_, end)| end);
    match kind {
        Some(kind @ ("svg" | "png" | "pdf")) => write(draw.output.as_deref(), &rendered(&dot, kind)?),
        _ => write(draw.output.as_deref(), dot.as_bytes()),
    }
}

/// The picture that Graphviz makes of it.
fn rendered(dot: &str, kind: &str) -> Done<Vec<u8>> {
    let absent =
        |why: &str| failed(format!("Graphviz's dot, which makes .{kind}, cannot be run: {why} (Debian's graphviz)"));
    let running = Command::new("dot").arg(format!("-T{kind}")).stdin(Stdio::piped()).stdout(Stdio::piped()).spawn();
    let mut running = match running {
        Ok(running) => running,
        Err(fault) => return absent(&reason(&fault)),
    };
    let mut input = running.stdin.take();
    let text = dot.to_string();
    let writer = std::thread::spawn(move || input.as_mut().map(|input| input.write_all(text.as_bytes())));
    let output = running.wait_with_output();
    let _ = writer.join();
    match output {
        Ok(output) if output.status.success() => Ok(output.stdout),
        // What an emulator gives where the program is not there.
        Ok(output) if output.status.code() == Some(127) => absent("No such file or directory"),
        Ok(output) => failed(format!("Graphviz's dot ended with {}", output.status)),
        Err(fault) => failed(format!("Graphviz's dot cannot be read: {}", reason(&fault))),
    }
}

const CHOSEN: &str = "#0b6e4f";
const OTHER: &str = "#8a8f98";

/// The table: a cluster a class, a box a row, an arrow from each eq cell to its class.
fn graph(source: &Source, table: &Table, asked: Option<&Asked>) -> String {
    let prices = asked.map(|asked| Prices::of(table, asked.root.sort));
    let chosen: HashSet<usize> =
        asked.and_then(|asked| asked.chosen.as_ref()).map_or(HashSet::new(), |c| c.rows.iter().copied().collect());
    let title = match asked {
        Some(Asked { root, proved: Ok(best), .. }) => {
            format!(
                "{}: {} costs {} (proved); its rows in green, and all else, are computed",
                short(&source.path),
                source.root_words(*root),
                best.cost
            )
        }
        Some(Asked { root, proved: Err(refusal), .. }) => {
            format!("{}: {}: {} (proved)", short(&source.path), source.root_words(*root), Refusal::name(*refusal))
        }
        None => short(&source.path).to_string(),
    }
        + "\na frame is a class with its cost; a box is a row with its own cost \u{2192} its cost with its parts";
    let mut out = format!(
        "digraph table {{\n  graph [compound=true, rankdir=TB, nodesep=0.25, ranksep=0.45, fontname=\"Helvetica\", fontsize=12, \
         labelloc=t, label={}];\n  node [shape=plain, fontname=\"Helvetica\", fontsize=11];\n  edge [color=\"{OTHER}\", arrowsize=0.6];\n",
        quoted(&title)
    );
    for (sort, kind) in table.sorts().iter().enumerate() {
        for class in 0..kind.classes() {
            let root = asked.is_some_and(|asked| asked.root == Root { sort, value: class });
            out += &cluster(source, table, prices.as_ref(), &chosen, Root { sort, value: class }, root);
        }
    }
    // An arrow ends at the border of its class; one that stays within a class ends at a row.
    for (number, row) in table.rows().iter().enumerate() {
        for (column, (sort, value)) in children(table, row).enumerate() {
            if let Some(anchor) = anchor(table, &chosen, sort, value) {
                let style = match chosen.contains(&number) {
                    true => format!(", color=\"{CHOSEN}\", penwidth=1.8"),
                    false => String::new(),
                };
                let own = (table.functions()[row.function].output, row.output) == (sort, value);
                let head = if own { String::new() } else { format!("lhead=cluster_{sort}_{value}") };
                out += &format!("  r{number}:a{column}:s -> {anchor} [{head}{style}];\n");
            }
        }
    }
    out + "}\n"
}

fn short(path: &str) -> &str {
    path.rsplit('/').next().unwrap_or(path)
}

fn cluster(
    source: &Source,
    table: &Table,
    prices: Option<&Prices>,
    chosen: &HashSet<usize>,
    class: Root,
    is_root: bool,
) -> String {
    let Root { sort, value } = class;
    let cost = prices.and_then(|prices| prices.cost(table, sort, value));
    let mut label = source.names.class(sort, value);
    if table.sorts().iter().filter(|sort| **sort != Sort::Base).count() > 1 {
        label = format!("{} {label}", source.names.sort(sort));
    }
    if prices.is_some() {
        label += &cost.map_or("   no cost".to_string(), |cost| format!("   {}", price(cost)));
    }
    let (color, width) = if is_root { (CHOSEN, 2.2) } else { ("#c3c7ce", 1.0) };
    let mut out = format!(
        "  subgraph cluster_{sort}_{value} {{\n    graph [style=rounded, color=\"{color}\", penwidth={width}, margin=8, labeljust=l, \
         label={}];\n",
        quoted(&label)
    );
    let mut any = false;
    for (number, row) in rows_of(table, class) {
        any = true;
        out += &format!("    r{number} [label={}];\n", row_label(source, table, prices, row, chosen.contains(&number)));
    }
    if !any {
        out += &format!("    e{sort}_{value} [label=\"no row\", fontcolor=\"{OTHER}\"];\n");
    }
    out + "  }\n"
}

fn rows_of(table: &Table, class: Root) -> impl Iterator<Item = (usize, &Row)> {
    let own = move |(_, row): &(usize, &Row)| {
        row.output == class.value && table.functions()[row.function].output == class.sort
    };
    table.rows().iter().enumerate().filter(own)
}

/// A row as a box: name and head cost, below it a field for each cell.
fn row_label(source: &Source, table: &Table, prices: Option<&Prices>, row: &Row, chosen: bool) -> String {
    let function = &table.functions()[row.function];
    let usable = function.usable() && !row.subsumed;
    let (color, fill, width) = match (chosen, usable) {
        (true, _) => (CHOSEN, "#d8f0e4", 2),
        (_, true) => ("#5b616b", "white", 1),
        _ => (OTHER, "#eeeeee", 1),
    };
    let name = html(&function.name);
    let name = if chosen { format!("<B>{name}</B>") } else { name };
    let total = prices.filter(|_| usable).and_then(|prices| prices.row_cost(table, row)).map(price);
    let mut head = format!("{name} <FONT POINT-SIZE=\"9\" COLOR=\"{color}\">{}", price(function.head_cost()));
    if let Some(total) = total.filter(|_| !function.arguments.is_empty()) {
        head += &format!(" &#8594; {total}");
    }
    head += "</FONT>";
    if !usable {
        let why = if row.subsumed {
            "subsumed"
        } else if function.hidden {
            "hidden"
        } else {
            "unextractable"
        };
        head += &format!("<BR/><FONT POINT-SIZE=\"9\" COLOR=\"{OTHER}\">{why}</FONT>");
    }
    let span = function.arguments.len().max(1);
    let mut label = format!(
        "<<TABLE BORDER=\"{width}\" COLOR=\"{color}\" BGCOLOR=\"{fill}\" CELLBORDER=\"0\" CELLSPACING=\"0\" CELLPADDING=\"3\">\
         <TR><TD COLSPAN=\"{span}\">{head}</TD></TR>"
    );
    if !function.arguments.is_empty() {
        label += "<TR>";
        for (column, (sort, value)) in children(table, row).enumerate() {
            let cell = source.names.cell(&source.parts, sort, value);
            label += &format!(
                "<TD PORT=\"a{column}\" BORDER=\"1\" COLOR=\"#dddddd\"><FONT POINT-SIZE=\"9\">{}</FONT></TD>",
                html(&cell)
            );
        }
        label += "</TR>";
    }
    label + "</TABLE>>"
}

/// The box at which arrows to a class point: its chosen row, or its first.
fn anchor(table: &Table, chosen: &HashSet<usize>, sort: usize, value: usize) -> Option<String> {
    if table.sorts()[sort] == Sort::Base {
        return None;
    }
    let class = Root { sort, value };
    let first = rows_of(table, class).find(|(row, _)| chosen.contains(row)).or_else(|| rows_of(table, class).next());
    Some(first.map_or(format!("e{sort}_{value}"), |(row, _)| format!("r{row}")))
}

/// The term: each distinct part once; a shared one has a double border and says how often it is used.
fn term(table: &Table, chosen: &Chosen, about: &str) -> String {
    let mut uses = vec![0; chosen.parts.len()];
    for part in &chosen.parts {
        if let Part::Application(_, kids) = part {
            kids.iter().for_each(|kid| uses[*kid] += 1);
        }
    }
    let title = format!(
        "{about}: {} as a tree, {} as a graph with shared parts paid once\na box is a part with its own cost",
        price(chosen.cost),
        chosen.graph_cost(table)
    );
    let mut out = format!(
        "digraph term {{\n  graph [rankdir=TB, nodesep=0.3, ranksep=0.35, ordering=out, fontname=\"Helvetica\", fontsize=12, labelloc=t, \
         label={}];\n  node [shape=box, style=\"rounded,filled\", fillcolor=white, color=\"{CHOSEN}\", fontname=\"Helvetica\", \
         fontsize=11, height=0.3];\n  edge [color=\"{CHOSEN}\", arrowsize=0.6];\n",
        quoted(&title)
    );
    for (number, part) in chosen.parts.iter().enumerate() {
        let name = match part {
            Part::Literal(value) => value.to_string(),
            Part::Application(function, _) => table.functions()[*function].name.clone(),
        };
        let mut label = format!("{name}   {}", price(head_cost(table, part)));
        let mut style = "";
        if uses[number] > 1 {
            label += &format!("\nused {} times", uses[number]);
            style = ", peripheries=2, fillcolor=\"#d8f0e4\"";
        }
        out += &format!("  t{number} [label={}{style}];\n", quoted(&label));
        if let Part::Application(_, kids) = part {
            kids.iter().for_each(|kid| out += &format!("  t{number} -> t{kid};\n"));
        }
    }
    out + "}\n"
}

fn price(cost: u64) -> String {
    if cost == u64::MAX {
        "2^64-1 or more".to_string()
    } else {
        cost.to_string()
    }
}

/// A text as DOT's quoted string.
fn quoted(text: &str) -> String {
    format!("\"{}\"", text.replace('\\', "\\\\").replace('"', "\\\"").replace('\n', "\\n"))
}

/// A text in a label of Graphviz's HTML, where `\\N` would be the box's name.
fn html(text: &str) -> String {
    text.replace('&', "&amp;").replace('\\', "\\\\").replace('<', "&lt;").replace('>', "&gt;").replace('"', "&quot;")
}
