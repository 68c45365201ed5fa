//! All tables of one eq sort and at most one base sort, in order of their length in bits.

use paper::cost::Priced;
use paper::generate::make::{function, row};
use paper::table::{Function, Row, Sort, Table};

/// Head costs that a declared cost is drawn from.
const COSTS: [u64; 5] = [0, 1, u64::MAX / 2, u64::MAX - 1, u64::MAX];

/// A table without its numbers: arity and 'has a cost' of each function, the function of each row, literals.
#[derive(Clone, Debug)]
struct Shape {
    /// Input sorts (0 eq, 1 base) and whether a cost is declared.
    functions: Vec<(Vec<usize>, bool)>,
    rows: Vec<usize>,
    base: bool,
}

impl Shape {
    /// The table with costs and cells filled in order from the given ones.
    fn table(&self, costs: &[u64], cells: &[usize]) -> Table {
        let classes = cells.iter().max().map_or(0, |c| c + 1) as u64;
        let mut costs = costs.iter().copied();
        let mut cells = cells.iter().copied();
        let mut functions: Vec<Function> = Vec::new();
        for (at, (inputs, declared)) in self.functions.iter().enumerate() {
            let cost = if *declared { costs.next() } else { None };
            functions.push(function(&[b'A' + at as u8], cost, inputs, 0));
        }
        let mut rows: Vec<Row> = Vec::new();
        for f in &self.rows {
            let kids = self.functions[*f].0.iter().map(|sort| if *sort == 0 { cells.next().unwrap_or(0) } else { 0 });
            let mut all: Vec<usize> = kids.collect();
            all.push(cells.next().unwrap_or(0));
            rows.push(row(*f, &all));
        }
        let mut sorts = vec![Sort::Eq(classes)];
        sorts.extend(self.base.then_some(Sort::Base));
        Table { sorts, literals: if self.base { vec![0] } else { vec![] }, functions, rows }
    }

    /// How many class cells its rows have.
    fn cells(&self) -> usize {
        let eq = |f: &usize| 1 + self.functions[*f].0.iter().filter(|sort| **sort == 0).count();
        self.rows.iter().map(eq).sum()
    }

    fn declared(&self) -> usize {
        self.functions.iter().filter(|(_, declared)| *declared).count()
    }

    fn bits(&self) -> usize {
        self.table(&[0; 8], &[0; 64]).bits()
    }
}

/// Every shape of at most `most` bits with a declared cost, in order of its bits. Each function has a row.
fn shapes(most: usize) -> Vec<Shape> {
    let mut found = Vec::new();
    for base in [false, true] {
        grow(&Shape { functions: vec![], rows: vec![], base }, most, &mut found);
    }
    found.sort_by_key(Shape::bits);
    found
}

/// Adds one more row, of the last function or of a new one, as long as the bits allow.
fn grow(shape: &Shape, most: usize, found: &mut Vec<Shape>) {
    let next = shape.functions.len();
    let mut more = Vec::new();
    if next > 0 {
        let mut longer = shape.clone();
        longer.rows.push(next - 1);
        more.push(longer);
    }
    let inputs = |arity: usize| {
        (0..1usize << if shape.base { arity } else { 0 })
            .map(move |sorts| (0..arity).map(|place| sorts >> place & 1).collect::<Vec<usize>>())
    };
    for inputs in (0..=2).flat_map(inputs) {
        for declared in [false, true] {
            let mut wider = shape.clone();
            wider.functions.push((inputs.clone(), declared));
            wider.rows.push(next);
            more.push(wider);
        }
    }
    for shape in more.into_iter().filter(|s| s.bits() <= most) {
        grow(&shape, most, found);
        if shape.declared() > 0 {
            found.push(shape);
        }
    }
}

/// Every way to name classes in `places` cells, up to renaming: each new class is one more than those before.
fn labellings(places: usize, each: &mut impl FnMut(&[usize]) -> bool) -> bool {
    fn go(cells: &mut Vec<usize>, classes: usize, places: usize, each: &mut impl FnMut(&[usize]) -> bool) -> bool {
        if cells.len() == places {
            return each(cells);
        }
        for class in 0..=classes {
            cells.push(class);
            let done = go(cells, classes.max(class + 1), places, each);
            cells.pop();
            if done {
                return true;
            }
        }
        false
    }
    go(&mut Vec::new(), 0, places, each)
}

/// The first table in the order of the shapes, and the first class of it, for which `wanted` holds.
pub fn first(most: usize, wanted: impl Fn(&Priced, usize) -> bool) -> Option<(usize, Table, usize)> {
    for (tried, shape) in shapes(most).iter().enumerate() {
        let mut found = None;
        for code in 0..COSTS.len().pow(shape.declared() as u32) {
            let costs: Vec<u64> =
                (0..shape.declared()).map(|k| COSTS[code / COSTS.len().pow(k as u32) % COSTS.len()]).collect();
            labellings(shape.cells(), &mut |cells| {
                let table = shape.table(&costs, cells);
                let priced = Priced::new(&table, 0);
                let classes = cells.iter().max().map_or(0, |c| c + 1);
                let class = (0..classes).find(|class| wanted(&priced, *class));
                found = class.map(|class| (table.clone(), class));
                found.is_some()
            });
            if let Some((table, class)) = found {
                return Some((tried + 1, table, class));
            }
        }
    }
    None
}
