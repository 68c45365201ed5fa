//! `import`: an e-graph in egraph-serialize's JSON as a table. What does not map is counted and said before anything is
//! written.
//!
//! A node becomes a row, its e-class a class of a sort, the sort the e-class's type (`class_data`), or `E` where none is
//! given. A node's op, sorts and cost make a function; where one op comes with several, the later ones get `~2`, `~3`, ..
//! Integers that cost 1 and whose type holds nothing else are literals of a base sort.

use crate::args::Import;
use crate::source::titled;
use crate::stop::{failed, refused, Done};
use crate::streams::{read, write};
use needlevale::{name_byte, text, verdict, Draft, Function, Named, Names, Root, Row, Sort, LONGEST_NAME};
use serde_json::{Map, Value};
use std::collections::{HashMap, HashSet};

/// The longest JSON that is read.
pub const LONGEST_JSON: usize = 256 << 20;

pub fn run(import: &Import) -> Done<()> {
    let bytes = read(&import.json, LONGEST_JSON)?;
    let path = titled(&import.json);
    let (named, notes) = table_of(&path, &bytes, f64::from(import.scale))?;
    for note in notes {
        eprintln!("needlevale: {path}: {note}");
    }
    match verdict(named.table.encode()) {
        Ok(None) => {}
        other => {
            return failed(format!(
                "{}: the proved reader says {other:?} of the table; please report this",
                import.json
            ))
        }
    }
    match &import.output {
        Some(path) if !path.ends_with(".txt") && path != "-" => write(Some(path), named.table.encode()),
        path => write(path.as_deref(), text::write(&named.table.into_draft(), &named.names).as_bytes()),
    }
}

/// A node of the JSON.
struct Node {
    op: String,
    children: Vec<String>,
    class: String,
    /// None where it must not be chosen: a cost of null.
    cost: Option<f64>,
    subsumed: bool,
}

/// The table of a JSON file, and what is to be said of it.
pub fn table_of(path: &str, bytes: &[u8], scale: f64) -> Done<(Named, Vec<String>)> {
    if bytes.len() > LONGEST_JSON {
        return refused(format!("{path}: the JSON is longer than {LONGEST_JSON} bytes"));
    }
    let value: Value = match serde_json::from_slice(bytes) {
        Ok(value) => value,
        Err(fault) => {
            let (line, column) = (fault.line(), fault.column());
            let said = fault.to_string();
            let what = said.split(" at line").next().unwrap_or(&said).to_string();
            return refused(format!("{path}:{line}:{column}: this is no JSON: {what}"));
        }
    };
    let nodes = nodes_of(path, &value)?;
    let types = types_of(&value);
    let graph = Graph::of(path, &nodes, &types, scale)?;
    graph.table(path, &value)
}

fn nodes_of(path: &str, value: &Value) -> Done<Vec<(String, Node)>> {
    let Some(nodes) = value.get("nodes").and_then(Value::as_object) else {
        return refused(format!("{path}: there is no object \"nodes\", as egraph-serialize's JSON has it"));
    };
    let mut read = Vec::new();
    for (id, node) in nodes {
        let word = |key: &str| node.get(key).and_then(Value::as_str).map(str::to_string);
        let children = match node.get("children") {
            None => Some(Vec::new()),
            Some(list) => list.as_array().and_then(|list| {
                list.iter().map(|child| child.as_str().map(str::to_string)).collect::<Option<Vec<_>>>()
            }),
        };
        let cost = match node.get("cost") {
            None => Some(Some(1.0)),
            Some(Value::Null) => Some(None),
            Some(cost) => cost.as_f64().map(Some),
        };
        let subsumed = node.get("subsumed").and_then(Value::as_bool).unwrap_or(false);
        match (word("op"), word("eclass"), children, cost) {
            (Some(op), Some(class), Some(children), Some(cost)) => {
                read.push((id.clone(), Node { op, children, class, cost, subsumed }));
            }
            _ => {
                return refused(format!(
                    "{path}: node \"{id}\" lacks a text \"op\" or \"eclass\", or its \"children\" are no list of texts, or its \
                     \"cost\" is no number"
                ))
            }
        }
    }
    Ok(read)
}

fn types_of(value: &Value) -> HashMap<String, String> {
    let mut types = HashMap::new();
    for (class, data) in value.get("class_data").and_then(Value::as_object).unwrap_or(&Map::new()) {
        if let Some(name) = data.get("type").and_then(Value::as_str) {
            types.insert(class.clone(), name.to_string());
        }
    }
    types
}

/// The e-graph by sorts and classes.
struct Graph<'a> {
    nodes: &'a [(String, Node)],
    /// The sort names, in order of first use.
    sorts: Vec<String>,
    base: Vec<bool>,
    /// Each e-class: its sort, and its class or literal there.
    places: HashMap<&'a str, (usize, usize)>,
    classes: Vec<Vec<String>>,
    literals: Vec<i64>,
    class_of_node: HashMap<&'a str, &'a str>,
    scale: f64,
}

const UNTYPED: &str = "E";

impl<'a> Graph<'a> {
    fn of(path: &str, nodes: &'a [(String, Node)], types: &HashMap<String, String>, scale: f64) -> Done<Graph<'a>> {
        let mut graph = Graph {
            nodes,
            sorts: Vec::new(),
            base: Vec::new(),
            places: HashMap::new(),
            classes: Vec::new(),
            literals: Vec::new(),
            class_of_node: nodes.iter().map(|(id, node)| (id.as_str(), node.class.as_str())).collect(),
            scale,
        };
        let mut sort_of = HashMap::new();
        for (_, node) in nodes {
            let name = types.get(&node.class).map_or(UNTYPED, String::as_str);
            let sort = *sort_of.entry(name).or_insert_with(|| {
                graph.sorts.push(name.to_string());
                graph.sorts.len() - 1
            });
            graph.places.entry(&node.class).or_insert((sort, usize::MAX));
        }
        graph.find_base();
        graph.number_classes();
        for (id, node) in nodes {
            if let Some(missing) = node.children.iter().find(|child| !graph.class_of_node.contains_key(child.as_str()))
            {
                return refused(format!("{path}: node \"{id}\" has the child \"{missing}\", which is no node"));
            }
        }
        Ok(graph)
    }

    /// A sort is base where each of its e-classes is one integer that costs 1.
    fn find_base(&mut self) {
        let mut used: HashMap<&str, usize> = HashMap::new();
        for (_, node) in self.nodes {
            *used.entry(&node.class).or_default() += 1;
        }
        self.base = vec![true; self.sorts.len()];
        for (_, node) in self.nodes {
            let (sort, _) = self.places[node.class.as_str()];
            let integer = node.children.is_empty() && integer(&node.op).is_some() && !node.subsumed;
            let one = node.cost.is_some_and(|cost| cost * self.scale == 1.0);
            let typed = self.sorts[sort] != UNTYPED;
            self.base[sort] &= typed && integer && one && used[node.class.as_str()] == 1;
        }
    }

    fn number_classes(&mut self) {
        self.classes = vec![Vec::new(); self.sorts.len()];
        let mut taken: Vec<HashSet<String>> = vec![HashSet::new(); self.sorts.len()];
        for (_, node) in self.nodes {
            let Some(place) = self.places.get_mut(node.class.as_str()) else { continue };
            let sort = place.0;
            if place.1 != usize::MAX {
                continue;
            }
            if self.base[sort] {
                place.1 = self.literals.len();
                self.literals.extend(integer(&node.op));
            } else {
                place.1 = self.classes[sort].len();
                let mut name = word(&node.class, usize::MAX);
                if name.bytes().all(|byte| byte.is_ascii_digit()) {
                    name.insert(0, 'c');
                }
                let name = fresh(name, usize::MAX, &taken[sort]);
                taken[sort].insert(name.clone());
                self.classes[sort].push(name);
            }
        }
    }

    fn table(self, path: &str, value: &Value) -> Done<(Named, Vec<String>)> {
        let mut notes = Vec::new();
        let mut draft = Draft { literals: self.literals.clone(), ..Draft::default() };
        draft.sorts = (0..self.sorts.len())
            .map(|sort| if self.base[sort] { Sort::Base } else { Sort::Eq(self.classes[sort].len()) })
            .collect();
        let mut functions: HashMap<(String, Vec<usize>, usize, Option<u64>), usize> = HashMap::new();
        let mut taken = HashSet::new();
        let mut lost = Lost::default();
        for (_, node) in self.nodes {
            let (output, class) = self.places[node.class.as_str()];
            if self.base[output] {
                continue;
            }
            let children: Vec<(usize, usize)> =
                node.children.iter().map(|child| self.places[self.class_of_node[child.as_str()]]).collect();
            let cost = match node.cost.map(|cost| whole(cost * self.scale)) {
                None => None,
                Some(Some(cost)) => Some(cost),
                Some(None) => {
                    lost.costs += 1;
                    lost.cost.get_or_insert(node.cost.unwrap_or(0.0));
                    continue;
                }
            };
            lost.long_rows += usize::from(children.len() > needlevale::MOST_ARGUMENTS);
            let arguments: Vec<usize> = children.iter().map(|(sort, _)| *sort).collect();
            let key = (node.op.clone(), arguments.clone(), output, cost);
            let function = *functions.entry(key).or_insert_with(|| {
                let name = fresh(word(&node.op, LONGEST_NAME), LONGEST_NAME, &taken);
                lost.renamed += usize::from(name != node.op);
                taken.insert(name.clone());
                let declared = cost.filter(|cost| *cost != 1);
                let unextractable = cost.is_none();
                draft.functions.push(Function {
                    name,
                    cost: declared,
                    unextractable,
                    hidden: false,
                    arguments,
                    output,
                });
                draft.functions.len() - 1
            });
            let arguments = children.iter().map(|(_, value)| *value).collect();
            draft.rows.push(Row { function, subsumed: node.subsumed, arguments, output: class });
        }
        let faults = lost.faults(&draft);
        if !faults.is_empty() {
            return refused(format!("{path}: nothing is written, because {}", faults.join("; ")));
        }
        let barred = draft.functions.iter().filter(|function| function.unextractable).count();
        if barred > 0 {
            notes.push(format!("{barred} functions have no cost (null) and are unextractable in the table"));
        }
        if lost.renamed > 0 {
            notes.push(format!(
                "{} functions have a name that is not the node's op: an op with several sorts or costs, or one that is no \
                 name of a table",
                lost.renamed
            ));
        }
        let mut sort_names = Vec::new();
        for name in &self.sorts {
            let mut name = word(name, usize::MAX);
            if name.bytes().all(|byte| byte.is_ascii_digit()) {
                name.insert(0, 's');
            }
            let taken = sort_names.iter().cloned().collect();
            sort_names.push(fresh(name, usize::MAX, &taken));
        }
        let mut names = Names { sorts: sort_names, classes: self.classes.clone(), roots: Vec::new() };
        for root in value.get("root_eclasses").and_then(Value::as_array).unwrap_or(&Vec::new()) {
            match root.as_str().and_then(|class| self.places.get(class)) {
                Some((sort, value)) => names.roots.push(Root { sort: *sort, value: *value }),
                None => notes.push(format!("the root {root} is the e-class of no node and is left out")),
            }
        }
        match draft.build() {
            Ok(table) => Ok((Named { table, names }, notes)),
            Err(fault) => refused(format!("{path}: nothing is written, because {fault}")),
        }
    }
}

/// What does not map, counted.
#[derive(Default)]
struct Lost {
    costs: usize,
    cost: Option<f64>,
    long_rows: usize,
    renamed: usize,
}

impl Lost {
    fn faults(&self, draft: &Draft) -> Vec<String> {
        let mut faults = Vec::new();
        let mut over = |number: usize, most: usize, what: &str| {
            if number > most {
                faults.push(format!("there are {number} {what}, and a table has at most {most}"));
            }
        };
        over(draft.sorts.iter().map(|sort| sort.classes()).sum(), needlevale::MOST_CLASSES, "classes");
        over(draft.rows.len() + self.costs, needlevale::MOST_ROWS, "rows");
        over(draft.functions.len(), needlevale::MOST_FUNCTIONS, "functions");
        over(draft.literals.len(), needlevale::MOST_LITERALS, "literals");
        over(draft.sorts.len(), needlevale::MOST_SORTS, "sorts");
        if self.long_rows > 0 {
            faults.push(format!("{} nodes have more than 8 children", self.long_rows));
        }
        if self.costs > 0 {
            let such = self.cost.map_or(String::new(), |cost| format!(", such as {cost}"));
            faults.push(format!(
                "{} nodes have a cost that is no whole number from 0 to 2^64-1{such} (--scale multiplies costs)",
                self.costs
            ));
        }
        faults
    }
}

fn integer(op: &str) -> Option<i64> {
    op.parse::<i64>().ok().filter(|value| value.to_string() == op)
}

/// A cost as a whole number: exact, or none.
fn whole(cost: f64) -> Option<u64> {
    (cost.fract() == 0.0 && (0.0..18_446_744_073_709_551_616.0).contains(&cost)).then_some(cost as u64)
}

/// A text as a word of a table: what stands in no name becomes `_`, what is too long is cut.
fn word(said: &str, longest: usize) -> String {
    let held = |letter: char| if letter.is_ascii() && name_byte(letter as u8) { letter } else { '_' };
    let word: String = said.chars().map(held).take(longest).collect();
    if word.is_empty() {
        "_".to_string()
    } else {
        word
    }
}

/// The word, or the word with `~2`, `~3`, .. where it is taken.
fn fresh(word: String, longest: usize, taken: &HashSet<String>) -> String {
    let mut name = word.clone();
    let mut at = 2;
    while taken.contains(&name) {
        let tail = format!("~{at}");
        name = word.chars().take(longest - tail.len()).collect::<String>() + &tail;
        at += 1;
    }
    name
}
