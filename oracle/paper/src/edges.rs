//! 'Both sides of each edge' of document 01: inputs and scripts with the answers that the paper gives by hand.

use crate::generate::make::{function, row};
use crate::generate::{OneTerm, worked_example};
use crate::stream::hex;
use crate::table::{BEST_LET, BEST_PLAIN, Function, Query, Row, Sort, Table, VARIANTS, input};

/// What is asked: the program's standard input, or a script of calls on a term store.
pub enum Asked {
    Input(Vec<u8>),
    Script(String),
}

pub struct Edge {
    pub title: &'static str,
    pub asked: Asked,
    pub answer: String,
}

/// The list as text: a title, the input in hex or the script behind `>`, the answer behind `|`.
pub fn write(edges: &[Edge]) -> String {
    let mut out = String::new();
    for edge in edges {
        out += &format!("# {}\n", edge.title);
        match &edge.asked {
            Asked::Input(bytes) => out += &format!("input {}\n", hex(bytes)),
            Asked::Script(text) => text.lines().for_each(|line| out += &format!("> {line}\n")),
        }
        edge.answer.lines().for_each(|line| out += &format!("|{}{line}\n", if line.is_empty() { "" } else { " " }));
        out.push('\n');
    }
    out
}

/// A table of eq sort 0 and base sort 1.
fn table(classes: u64, literals: &[i64], functions: Vec<Function>, rows: Vec<Row>) -> Table {
    Table { sorts: vec![Sort::Eq(classes), Sort::Base], literals: literals.to_vec(), functions, rows }
}

fn ask(title: &'static str, mode: u64, value: usize, n: u64, table: &Table, answer: &str) -> Edge {
    ask_of(title, Query { mode, sort: 0, value, n }, table, answer)
}

fn ask_of(title: &'static str, query: Query, table: &Table, answer: &str) -> Edge {
    Edge { title, asked: Asked::Input(input(&query, table)), answer: answer.into() }
}

fn script(title: &'static str, text: &str, answer: &str) -> Edge {
    Edge { title, asked: Asked::Script(text.into()), answer: answer.into() }
}

pub fn all() -> Vec<Edge> {
    let example = worked_example();
    assert!(example.len() == 3 + 47 && example[3..7] == [0x11, 0x40, 0x30, 0x04], "not document 01's 47 bytes");
    let mut edges = vec![Edge {
        title: "the worked example",
        asked: Asked::Input(example),
        answer: "best 14 4 2\n(let t0 (Add (Num 5) (Num 5)))\n\n(Add t0 t0)\n".into(),
    }];
    edges.extend(loops());
    edges.extend(dear());
    edges.extend(firsts());
    edges.extend(base_roots());
    edges.extend(widths());
    edges.extend(bindings());
    edges.extend(limits());
    edges.extend(scripts());
    edges
}

fn loops() -> Vec<Edge> {
    let wrap = function(b"Wrap", Some(0), &[0], 0);
    let leaf = function(b"Leaf", None, &[], 0);
    let both = table(1, &[], vec![wrap.clone(), leaf], vec![row(0, &[0, 0]), row(1, &[0])]);
    let only = table(1, &[], vec![wrap], vec![row(0, &[0, 0])]);
    let two = "variants 2 2\nvariant 1 1 1\n(Leaf)\nvariant 2 1 2\n(Wrap (Leaf))\n";
    vec![
        ask(
            "Wrap(0)->0 cost 0, then Leaf()->0: best is (Leaf), cost 1",
            BEST_LET,
            0,
            0,
            &both,
            "best 1 1 2\n\n(Leaf)\n",
        ),
        ask("Wrap(0)->0 cost 0, then Leaf()->0: its variants", VARIANTS, 0, 255, &both, two),
        ask("only Wrap(0)->0: NoTerm", BEST_LET, 0, 0, &only, "refused 11\n"),
        ask("only Wrap(0)->0: no variants", VARIANTS, 0, 255, &only, "variants 0 1\n"),
    ]
}

fn dear() -> Vec<Edge> {
    let num = |cost| table(1, &[5], vec![function(b"Num", Some(cost), &[1], 0)], vec![row(0, &[0, 0])]);
    let (below, at) = (num(u64::MAX - 2), num(u64::MAX - 1));
    let best = "best 18446744073709551614 2 2\n(Num 5)\n";
    let variant = "variants 1 2\nvariant 1 18446744073709551614 2\n(Num 5)\n";
    vec![
        ask("one Num(literal) row, head cost 2^64-3: cost 2^64-2", BEST_PLAIN, 0, 0, &below, best),
        ask("one Num(literal) row, head cost 2^64-3: its variant", VARIANTS, 0, 1, &below, variant),
        ask("one Num(literal) row, head cost 2^64-2: TooDear", BEST_PLAIN, 0, 0, &at, "refused 12\n"),
        ask("one Num(literal) row, head cost 2^64-2: its variant is TooDear", VARIANTS, 0, 1, &at, "refused 12\n"),
        ask("one Num(literal) row, head cost 2^64-2: none kept", VARIANTS, 0, 0, &at, "variants 0 2\n"),
    ]
}

fn firsts() -> Vec<Edge> {
    let leaves = vec![function(b"Zed", None, &[], 0), function(b"Abe", None, &[], 0)];
    let two = table(1, &[], leaves, vec![row(1, &[0]), row(0, &[0])]);
    let num = table(1, &[8, 3], vec![function(b"Num", None, &[1], 0)], vec![row(0, &[1, 0]), row(0, &[0, 0])]);
    let variants = "variants 2 2\nvariant 1 1 1\n(Abe)\nvariant 2 1 1\n(Zed)\n";
    let indices = "variants 2 2\nvariant 1 2 2\n(Num 8)\nvariant 2 2 2\n(Num 3)\n";
    vec![
        ask("two cost-1 leaves: the first in scan order", BEST_PLAIN, 0, 0, &two, "best 1 1 2\n(Zed)\n"),
        ask("two cost-1 leaves: variants go by name", VARIANTS, 0, 2, &two, variants),
        ask("two rows of one function: the first in file order", BEST_PLAIN, 0, 0, &num, "best 2 2 2\n(Num 3)\n"),
        ask("two rows of one function: variants go by literal index", VARIANTS, 0, 2, &num, indices),
    ]
}

fn base_roots() -> Vec<Edge> {
    let least = table(0, &[5, i64::MIN], vec![], vec![]);
    let root = |mode, value| Query { mode, sort: 1, value, n: 0 };
    let minimum = "best 1 1 1\n-9223372036854775808\n";
    vec![
        ask_of(
            "a base root with n = 0: one variant, cost 1",
            root(VARIANTS, 0),
            &least,
            "variants 1 1\nvariant 1 1 1\n5\n",
        ),
        ask_of("a base root: best costs 1", root(BEST_LET, 0), &least, "best 1 1 1\n\n5\n"),
        ask_of("literal -9223372036854775808 prints all its digits", root(BEST_PLAIN, 1), &least, minimum),
        ask_of("a base root past the literals: BadRoot", root(BEST_PLAIN, 2), &least, "refused 10\n"),
    ]
}

/// F of three childless applications with names of 31, 31 and some bytes.
fn three(last: usize) -> (OneTerm, usize, [String; 3]) {
    let names = ["a".repeat(31), "b".repeat(31), "c".repeat(last)];
    let mut terms = OneTerm::default();
    let kids: Vec<usize> = names.iter().map(|n| terms.app(n.as_bytes(), &[])).collect();
    let root = terms.app(b"F", &kids);
    (terms, root, names)
}

fn widths() -> Vec<Edge> {
    let (fits, root, [a, b, c]) = three(6);
    let one_line = format!("best 0 4 2\n\n(F ({a}) ({b}) ({c}))\n");
    let (over, other, [_, _, d]) = three(7);
    let broken = format!("best 0 4 2\n\n(F\n  ({a})\n  ({b})\n  ({d}))\n");
    vec![
        Edge { title: "80 characters: one line", asked: Asked::Input(fits.ask(BEST_LET, root)), answer: one_line },
        Edge { title: "81 characters: broken", asked: Asked::Input(over.ask(BEST_LET, other)), answer: broken },
    ]
}

fn bindings() -> Vec<Edge> {
    let mut terms = OneTerm::default();
    let (x, y) = (terms.app(b"x", &[]), terms.app(b"y", &[]));
    let three = terms.app(b"two", &[x, y]);
    let four = terms.app(b"one", &[three]);
    let over_three = terms.app(b"R", &[three, three]);
    let over_four = terms.app(b"R", &[four, four]);
    let unbound = "best 0 4 2\n\n(R (two (x) (y)) (two (x) (y)))\n";
    let bound = "best 0 5 2\n(let t0 (one (two (x) (y))))\n\n(R t0 t0)\n";
    vec![
        Edge {
            title: "a shared term of size 3: no binding",
            asked: Asked::Input(terms.ask(BEST_LET, over_three)),
            answer: unbound.into(),
        },
        Edge {
            title: "a shared term of size 4: bound",
            asked: Asked::Input(terms.ask(BEST_LET, over_four)),
            answer: bound.into(),
        },
    ]
}

fn limits() -> Vec<Edge> {
    let wide = |arity: usize| {
        let functions = vec![function(b"L", None, &[], 0), function(b"F", None, &vec![0; arity], 0)];
        let mut cells = vec![0; arity];
        cells.push(1);
        table(2, &[], functions, vec![row(0, &[0]), row(1, &cells)])
    };
    let eight = "best 9 2 2\n(F (L) (L) (L) (L) (L) (L) (L) (L))\n";
    let classes = |count| table(count, &[], vec![function(b"L", None, &[], 0)], vec![row(0, &[511])]);
    vec![
        ask("arity 8: accepted", BEST_PLAIN, 1, 0, &wide(8), eight),
        ask("arity 9: refused", BEST_PLAIN, 1, 0, &wide(9), "refused 3\n"),
        ask("512 classes: accepted", BEST_PLAIN, 511, 0, &classes(512), "best 1 1 2\n(L)\n"),
        ask("513 classes: refused", BEST_PLAIN, 511, 0, &classes(513), "refused 3\n"),
    ]
}

/// What only the calls on a store can show.
fn scripts() -> Vec<Edge> {
    let (a, b) = ("a".repeat(31), "b".repeat(31));
    let three =
        |c: &str| format!("lent 4 4\nvariable {a}\nvariable {b}\nvariable {c}\napp F 0 1 2\nlet 200 % t 0 0 3\n");
    let (c12, c13) = ("c".repeat(12), "c".repeat(13));
    let added = "term 0\nterm 1\nterm 2\nterm 3\n";
    let line = format!("{added}let 0 81 %0A(F {a} {b} {c12})\n");
    let lines = format!("{added}let 0 88 %0A(F%0A  {a}%0A  {b}%0A  {c13})\n");
    let naming = "lent 9 9\nvariable x\napp P 0 0 0\napp R 1 1\nlet 99 % t 0 1 2\nlet 99 % t 0 0 2\nlet 99 p t 7 1 2\n\
                  let 99 % t 4294966271 0 2\nlet 99 % t 4294966272 0 2\nlet 26 % t 0 1 2\nlet 25 % t 0 1 2\n";
    let named = "term 0\nterm 1\nterm 2\nlet 1 26 (let t (P x x x))%0A%0A(R t t)\n\
                 let 1 29 (let t0 (P x x x))%0A%0A(R t0 t0)\nlet 8 32 (let pt7 (P x x x))%0A%0A(R pt7 pt7)\n\
                 let 4294966272 56 (let t4294966271 (P x x x))%0A%0A(R t4294966271 t4294966271)\nrefused 3\n\
                 let 1 26 (let t (P x x x))%0A%0A(R t t)\nrefused 13\n";
    let order = "lent 9 9\nliteral 5\nliteral -5\nvariable b\nvariable B\napp b\napp b 0\napp b 1\n\
                 sort 6 5 4 3 2 1 0 6\ncompare 4 2\ncompare 3 3\ncompare 9 9\n";
    let ordered =
        "term 0\nterm 1\nterm 2\nterm 3\nterm 4\nterm 5\nterm 6\nsorted 1 0 3 2 4 6 6 5\ngreater\nequal\nrefused 14\n";
    let room = "lent 1 0\nliteral 1\nliteral 1\nliteral 2\nvariable x\nfind literal 2\nfind variable x\nsize\n";
    let roomy = "term 0\nterm 0\nrefused 13\nrefused 13\nrefused 15\nrefused 15\nsize 1\n";
    vec![
        script("F of three variables of 31, 31 and 12 bytes: one line", &three(&c12), &line),
        script("F of three variables of 31, 31 and 13 bytes: broken", &three(&c13), &lines),
        script("let names: zero flag, prefix, start count and its limit, room", naming, named),
        script("the order of terms, with repeats; an unknown number", order, ordered),
        script("what is there needs no room; Absent", room, roomy),
        script("an unknown child, the term's own number too", "lent 2 1\napp F 0\nsize\n", "refused 14\nsize 0\n"),
        script(
            "a store that is not well formed",
            "lent 1 1\nrecord 3 0 0 0 0 0 0 0 0 0 0 0\ncounts 1 0\nsize\n",
            "refused 17\n",
        ),
    ]
}
