//! What is computed here for pictures and counts, by document 01's rules. None of it is proved: the answers are the
//! library's, and where both say something, [`Chosen::differs`] holds them to each other.

use crate::ask::{Best, Root};
use crate::table::{Row, Sort, Table};
use std::collections::{HashMap, VecDeque};

/// The costs of all classes that a root reaches, and the row chosen for each.
pub struct Prices {
    /// The row numbers of the usable rows, in the order of a pass.
    pub scan: Vec<usize>,
    /// The passes, the last and changeless one counted.
    pub passes: u64,
    classes: Vec<Vec<Option<Class>>>,
    edges: Vec<Vec<Option<usize>>>,
}

#[derive(Clone, Copy)]
struct Class {
    cost: u64,
    rank: usize,
}

impl Prices {
    /// Prices the classes by passes over the rows, from the root's sort.
    pub fn of(table: &Table, sort: usize) -> Prices {
        let mut scan = Vec::new();
        for function in functions_in_order(table, sort) {
            let own = |(_, row): &(usize, &Row)| row.function == function && !row.subsumed;
            scan.extend(table.rows().iter().enumerate().filter(own).map(|(at, _)| at));
        }
        let blank = |sort: &Sort| vec![None; sort.classes()];
        let classes = table.sorts().iter().map(blank).collect();
        let mut prices = Prices { scan, passes: 0, classes, edges: Vec::new() };
        let mut rank = 0;
        while {
            prices.passes += 1;
            prices.pass(table, &mut rank)
        } {}
        prices.edges = prices.find_edges(table);
        prices
    }

    /// One pass; whether it changed anything.
    fn pass(&mut self, table: &Table, rank: &mut usize) -> bool {
        let mut changed = false;
        for at in 0..self.scan.len() {
            let row = &table.rows()[self.scan[at]];
            let Some(cost) = self.row_cost(table, row) else { continue };
            let class = &mut self.classes[table.functions()[row.function].output][row.output];
            if class.map_or(true, |old| cost < old.cost) {
                *rank += 1;
                *class = Some(Class { cost, rank: *rank });
                changed = true;
            }
        }
        changed
    }

    /// 'the first row in the same order with exactly its final cost and all child ranks strictly below its own'
    fn find_edges(&self, table: &Table) -> Vec<Vec<Option<usize>>> {
        let mut edges: Vec<Vec<Option<usize>>> = table.sorts().iter().map(|sort| vec![None; sort.classes()]).collect();
        for number in &self.scan {
            let row = &table.rows()[*number];
            let sort = table.functions()[row.function].output;
            let Some(own) = self.classes[sort][row.output] else { continue };
            let edge = &mut edges[sort][row.output];
            if edge.is_none()
                && self.row_cost(table, row) == Some(own.cost)
                && children(table, row).all(|(sort, value)| self.rank(table, sort, value).is_some_and(|r| r < own.rank))
            {
                *edge = Some(*number);
            }
        }
        edges
    }

    /// The cost of a class or literal; a literal costs 1.
    pub fn cost(&self, table: &Table, sort: usize, value: usize) -> Option<u64> {
        match table.sorts().get(sort)? {
            Sort::Base => Some(1),
            Sort::Eq(_) => self.classes.get(sort)?.get(value)?.map(|class| class.cost),
        }
    }

    fn rank(&self, table: &Table, sort: usize, value: usize) -> Option<usize> {
        match table.sorts().get(sort)? {
            Sort::Base => Some(0),
            Sort::Eq(_) => self.classes.get(sort)?.get(value)?.map(|class| class.rank),
        }
    }

    /// 'its head cost (none declared: 1) plus its children's, saturating at 2^64-1'
    pub fn row_cost(&self, table: &Table, row: &Row) -> Option<u64> {
        let head = table.functions().get(row.function)?.head_cost();
        children(table, row)
            .try_fold(head, |sum, (sort, value)| Some(sum.saturating_add(self.cost(table, sort, value)?)))
    }

    /// The number of the row chosen for a class.
    pub fn edge(&self, sort: usize, class: usize) -> Option<usize> {
        *self.edges.get(sort)?.get(class)?
    }
}

/// A row's children, each a sort and a value.
pub fn children<'a>(table: &'a Table, row: &'a Row) -> impl Iterator<Item = (usize, usize)> + 'a {
    let arguments = table.functions().get(row.function).map_or(&[][..], |function| &function.arguments);
    arguments.iter().copied().zip(row.arguments.iter().copied())
}

/// The usable functions in the order of a pass: sorts in a queue from the root's, each sort's functions in file order.
fn functions_in_order(table: &Table, root: usize) -> Vec<usize> {
    let mut seen = vec![false; table.sorts().len()];
    let mut functions = Vec::new();
    let mut queue = VecDeque::new();
    if let Some(first) = seen.get_mut(root) {
        *first = true;
        queue.push_back(root);
    }
    while let Some(sort) = queue.pop_front() {
        for (number, function) in table.functions().iter().enumerate() {
            if function.output != sort || !function.usable() {
                continue;
            }
            functions.push(number);
            for argument in &function.arguments {
                if !seen[*argument] {
                    seen[*argument] = true;
                    queue.push_back(*argument);
                }
            }
        }
    }
    functions
}

/// A part of a term: a literal, or a function on parts of smaller numbers.
#[derive(Clone, PartialEq, Eq, Hash, Debug)]
pub enum Part {
    /// A literal's value.
    Literal(i64),
    /// A function's number, and the numbers of its parts.
    Application(usize, Vec<usize>),
}

/// The chosen term of a root, each distinct part once, the root last.
pub struct Chosen {
    /// The distinct parts, children before parents.
    pub parts: Vec<Part>,
    /// The root and what was reached from it: the class of each eq part's first use.
    pub classes: HashMap<(usize, usize), usize>,
    /// The rows that the term is made of.
    pub rows: Vec<usize>,
    /// The cost as a tree, as the rows say it.
    pub cost: u64,
    /// The passes.
    pub passes: u64,
}

impl Chosen {
    /// The chosen term of a root, or nothing where it has no cost below 2^64-1.
    pub fn of(table: &Table, prices: &Prices, root: Root) -> Option<Chosen> {
        let cost = prices.cost(table, root.sort, root.value)?;
        if cost == u64::MAX {
            return None;
        }
        let mut chosen =
            Chosen { parts: Vec::new(), classes: HashMap::new(), rows: Vec::new(), cost, passes: prices.passes };
        chosen.build(table, prices, root)?;
        Some(chosen)
    }

    /// 'children first, left to right, then the term itself, once per sort and class'; ranks fall, so it ends. What waits
    /// for its children stands in a list and not on the caller's stack, since a term may be 512 deep.
    fn build(&mut self, table: &Table, prices: &Prices, root: Root) -> Option<()> {
        let mut known = HashMap::new();
        let mut waiting = vec![(root, false)];
        while let Some((Root { sort, value }, children_built)) = waiting.pop() {
            if self.classes.contains_key(&(sort, value)) {
                continue;
            }
            let part = match table.sorts().get(sort)? {
                Sort::Base => Part::Literal(*table.literals().get(value)?),
                Sort::Eq(_) => {
                    let number = prices.edge(sort, value)?;
                    let row = table.rows().get(number)?;
                    if !children_built {
                        waiting.push((Root { sort, value }, true));
                        let below: Vec<(usize, usize)> = children(table, row).collect();
                        waiting.extend(
                            below.iter().rev().map(|(sort, value)| (Root { sort: *sort, value: *value }, false)),
                        );
                        continue;
                    }
                    self.rows.push(number);
                    let parts = children(table, row).map(|child| self.classes.get(&child).copied());
                    Part::Application(row.function, parts.collect::<Option<Vec<usize>>>()?)
                }
            };
            let number = *known.entry(part.clone()).or_insert_with(|| {
                self.parts.push(part);
                self.parts.len() - 1
            });
            self.classes.insert((sort, value), number);
        }
        Some(())
    }

    /// The cost with every distinct part paid once: head costs, and 1 a literal.
    pub fn graph_cost(&self, table: &Table) -> u128 {
        self.parts.iter().map(|part| u128::from(head_cost(table, part))).sum()
    }

    /// The number of parts as a tree; nothing where it is 2^128 or more.
    pub fn tree_size(&self) -> Option<u128> {
        let mut sizes: Vec<Option<u128>> = Vec::new();
        for part in &self.parts {
            let size = match part {
                Part::Literal(_) => Some(1),
                Part::Application(_, kids) => kids.iter().try_fold(1u128, |sum, kid| sum.checked_add(sizes[*kid]?)),
            };
            sizes.push(size);
        }
        sizes.last().copied().flatten()
    }

    /// The parts on its longest way down.
    pub fn depth(&self) -> usize {
        let mut depths: Vec<usize> = Vec::new();
        for part in &self.parts {
            let below = match part {
                Part::Literal(_) => 0,
                Part::Application(_, kids) => kids.iter().map(|kid| depths[*kid]).max().unwrap_or(0),
            };
            depths.push(below + 1);
        }
        depths.last().copied().unwrap_or(0)
    }

    /// Its plain text, or nothing where that is longer than `room`.
    pub fn plain(&self, table: &Table, room: usize) -> Option<String> {
        let mut texts: Vec<Option<String>> = Vec::new();
        for part in &self.parts {
            let text = match part {
                Part::Literal(value) => Some(value.to_string()),
                Part::Application(function, kids) => {
                    let mut text = Some(format!("({}", table.functions().get(*function)?.name));
                    for kid in kids {
                        text = match (text, &texts[*kid]) {
                            (Some(text), Some(kid)) if text.len() + kid.len() < room => Some(text + " " + kid),
                            _ => None,
                        };
                    }
                    text.map(|text| text + ")")
                }
            };
            texts.push(text.filter(|text| text.len() <= room));
        }
        texts.pop().flatten()
    }

    /// Where this differs from the library's answer in plain text, in a sentence; nothing where both say the same.
    pub fn differs(&self, table: &Table, answer: &Best) -> Option<String> {
        let pairs = [
            ("cost", self.cost, answer.cost),
            ("number of distinct terms", self.parts.len() as u64, answer.terms),
            ("number of passes", self.passes, answer.passes),
        ];
        for (what, ours, proved) in pairs {
            if ours != proved {
                return Some(format!("the computed {what} is {ours}, but the proved answer's is {proved}"));
            }
        }
        match self.plain(table, answer.text.len()) {
            Some(text) if text == answer.text => None,
            _ => Some("the computed term is not the proved answer's".to_string()),
        }
    }
}

/// What a part costs by itself.
pub fn head_cost(table: &Table, part: &Part) -> u64 {
    match part {
        Part::Literal(_) => 1,
        Part::Application(function, _) => table.functions().get(*function).map_or(1, |f| f.head_cost()),
    }
}
