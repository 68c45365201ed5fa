//! The text form of a table, which a person can write: read by [`parse`], written by [`write()`].
//!
//! ```text
//! needlevale table 1
//! sort Math eq five ten twenty          ; an eq sort with three classes; 'eq 3' leaves them numbered 0 to 2
//! sort i64 base
//! literal 5                             ; may be left out: a row's new literal is added
//! function Num (i64) -> Math
//! function Add (Math Math) -> Math cost 2
//! row five = (Num 5)
//! row ten = (Add five five)
//! row twenty = (Add ten ten)
//! root Math twenty                      ; may be left out: what to ask about if nothing else is said
//! ```
//!
//! A line begins with its kind; `;` begins a comment; empty lines are passed over. `class SORT NAME..` adds named classes to
//! an eq sort. After a function's output sort may come `cost N`, `unextractable` and `hidden`, after a row `subsumed`. A sort
//! is given by name or number, a class by name or number, a literal by its value, or by `#INDEX`.

use crate::ask::Root;
use crate::fault::{count, Fault, Place};
use crate::layout::{MOST_CLASSES, MOST_FUNCTIONS, MOST_LITERALS, MOST_ROWS, MOST_SORTS};
use crate::names::{number, Named, Names};
use crate::table::{Draft, Function, Row, Sort};
use std::fmt;

/// The first line of the text form.
pub const HEADER: &str = "needlevale table 1";

/// What is wrong with a text, with its line and column, from 1.
#[derive(Clone, PartialEq, Eq, Debug)]
pub struct TextFault {
    /// The line.
    pub line: usize,
    /// The column, in characters.
    pub column: usize,
    /// What is wrong there.
    pub what: String,
}

impl fmt::Display for TextFault {
    fn fmt(&self, out: &mut fmt::Formatter) -> fmt::Result {
        write!(out, "{}:{}: {}", self.line, self.column, self.what)
    }
}

impl std::error::Error for TextFault {}

/// Whether bytes are meant as the text form: they begin with the header's first words.
///
/// No accepted file does: its first byte is 0x10 to 0x1F.
pub fn is_text(bytes: &[u8]) -> bool {
    bytes.starts_with(b"needlevale table")
}

/// Reads the text form.
///
/// ```
/// let text = "needlevale table 1\nsort Math eq 1\nfunction Leaf () -> Math\nrow 1 = (Leaf)\n";
/// let fault = needlevale::text::parse(text).unwrap_err();
/// assert_eq!(fault.to_string(), "4:5: class 1, but Math has 1 class");
/// ```
pub fn parse(text: &str) -> Result<Named, TextFault> {
    let mut reader = Reader::default();
    let mut headed = false;
    for (at, line) in text.lines().enumerate() {
        let line = Line { words: words(line, at + 1)?, number: at + 1 };
        if line.words.is_empty() {
            continue;
        }
        if !headed {
            line.header()?;
            headed = true;
            continue;
        }
        reader.line(line)?;
    }
    if !headed {
        return Err(TextFault { line: 1, column: 1, what: format!("the first line must be '{HEADER}'") });
    }
    reader.finish()
}

/// Writes a table in the text form; [`parse`] of it gives the same table.
pub fn write(parts: &Draft, names: &Names) -> String {
    let mut out = format!("{HEADER}\n");
    let mut line = |words: String| {
        out.push_str(&words);
        out.push('\n');
    };
    for (at, sort) in parts.sorts.iter().enumerate() {
        let name = names.sort(at);
        match (sort, names.classes.get(at)) {
            (Sort::Base, _) => line(format!("sort {name} base")),
            (Sort::Eq(classes), Some(named)) if !named.is_empty() && named.len() == *classes => {
                let mut chunks = named.chunks(12);
                line(format!("sort {name} eq {}", chunks.next().unwrap_or(&[]).join(" ")));
                chunks.for_each(|more| line(format!("class {name} {}", more.join(" "))));
            }
            (Sort::Eq(classes), _) => line(format!("sort {name} eq {classes}")),
        }
    }
    for values in parts.literals.chunks(12) {
        let values: Vec<String> = values.iter().map(i64::to_string).collect();
        line(format!("literal {}", values.join(" ")));
    }
    for function in &parts.functions {
        line(function_line(function, names));
    }
    for row in &parts.rows {
        line(row_line(parts, names, row));
    }
    for root in &names.roots {
        line(format!("root {} {}", names.sort(root.sort), names.cell(parts, root.sort, root.value)));
    }
    out
}

fn function_line(function: &Function, names: &Names) -> String {
    let arguments: Vec<String> = function.arguments.iter().map(|sort| names.sort(*sort)).collect();
    let mut out = format!("function {} ({}) -> {}", function.name, arguments.join(" "), names.sort(function.output));
    if let Some(cost) = function.cost {
        out += &format!(" cost {cost}");
    }
    out += if function.unextractable { " unextractable" } else { "" };
    out += if function.hidden { " hidden" } else { "" };
    out
}

fn row_line(parts: &Draft, names: &Names, row: &Row) -> String {
    let (application, class) = row_words(parts, names, row);
    format!("row {class} = {application}{}", if row.subsumed { " subsumed" } else { "" })
}

/// A row's application and its class, as the text form writes them.
pub fn row_words(parts: &Draft, names: &Names, row: &Row) -> (String, String) {
    let Some(function) = parts.functions.get(row.function) else { return ("()".to_string(), row.output.to_string()) };
    let mut application = format!("({}", function.name);
    for (sort, cell) in function.arguments.iter().zip(&row.arguments) {
        application += &format!(" {}", names.cell(parts, *sort, *cell));
    }
    (application + ")", names.class(function.output, row.output))
}

/// A word of a line and its column.
#[derive(Clone, Debug)]
struct Word {
    text: String,
    column: usize,
}

/// The words of a line: brackets stand alone, `;` begins a comment.
fn words(line: &str, number: usize) -> Result<Vec<Word>, TextFault> {
    let mut words: Vec<Word> = Vec::new();
    let mut open = false;
    for (at, letter) in line.chars().enumerate() {
        let column = at + 1;
        match letter {
            ';' => break,
            '(' | ')' => {
                words.push(Word { text: letter.to_string(), column });
                open = false;
            }
            letter if letter.is_ascii_whitespace() => open = false,
            '!'..='~' if letter != '"' => match words.last_mut() {
                Some(word) if open => word.text.push(letter),
                _ => {
                    words.push(Word { text: letter.to_string(), column });
                    open = true;
                }
            },
            _ => {
                let what = format!("the character {letter:?} stands in no word; words are of ASCII, without quotes");
                return Err(TextFault { line: number, column, what });
            }
        }
    }
    Ok(words)
}

struct Line {
    words: Vec<Word>,
    number: usize,
}

impl Line {
    fn fault<T>(&self, column: usize, what: impl Into<String>) -> Result<T, TextFault> {
        Err(TextFault { line: self.number, column, what: what.into() })
    }

    fn header(&self) -> Result<(), TextFault> {
        let said: Vec<&str> = self.words.iter().map(|word| word.text.as_str()).collect();
        if said.join(" ") == HEADER {
            return Ok(());
        }
        self.fault(self.words.first().map_or(1, |word| word.column), format!("the first line must be '{HEADER}'"))
    }

    /// Where the last word ends, for what is missing there.
    fn end(&self) -> usize {
        self.words.last().map_or(1, |word| word.column + word.text.len())
    }
}

/// The words of a line, taken one after the other.
struct Words {
    line: Line,
    at: usize,
}

impl Words {
    fn peek(&self) -> Option<&str> {
        self.line.words.get(self.at).map(|word| word.text.as_str())
    }

    fn next(&mut self, wanted: &str) -> Result<Word, TextFault> {
        match self.line.words.get(self.at) {
            Some(word) => {
                self.at += 1;
                Ok(word.clone())
            }
            None => self.line.fault(self.line.end(), format!("{wanted} is missing")),
        }
    }

    /// The next word, which must not be a bracket.
    fn name(&mut self, wanted: &str) -> Result<Word, TextFault> {
        let word = self.next(wanted)?;
        match word.text.as_str() {
            "(" | ")" => self.line.fault(word.column, format!("{wanted} is missing before '{}'", word.text)),
            _ => Ok(word),
        }
    }

    fn exactly(&mut self, wanted: &str) -> Result<Word, TextFault> {
        let word = self.next(&format!("'{wanted}'"))?;
        if word.text == wanted {
            return Ok(word);
        }
        self.line.fault(word.column, format!("'{wanted}' must stand here, not '{}'", word.text))
    }

    /// Takes the word if it is next.
    fn take(&mut self, wanted: &str) -> bool {
        let there = self.peek() == Some(wanted);
        self.at += usize::from(there);
        there
    }

    fn end(&self) -> Result<(), TextFault> {
        match self.line.words.get(self.at) {
            None => Ok(()),
            Some(word) => self.line.fault(word.column, format!("'{}' is one word too many", word.text)),
        }
    }
}

/// Where things stand in the text, for faults that only the whole table shows.
#[derive(Default)]
struct Marks {
    sorts: Vec<(usize, usize)>,
    literals: Vec<(usize, usize)>,
    functions: Vec<(usize, usize)>,
    rows: Vec<(usize, usize)>,
}

impl Marks {
    fn of(&self, place: Place) -> Option<(usize, usize)> {
        use Place::*;
        let (marks, at) = match place {
            SortCount => (&self.sorts, MOST_SORTS),
            Kind { sort } | Classes { sort } => (&self.sorts, sort),
            LiteralCount => (&self.literals, MOST_LITERALS),
            Literal { literal } => (&self.literals, literal),
            FunctionCount => (&self.functions, MOST_FUNCTIONS),
            RowCount => (&self.rows, MOST_ROWS),
            NameLength { function } | Name { function } | Output { function } | Arity { function } => {
                (&self.functions, function)
            }
            HasCost { function } | Cost { function } | Unextractable { function } | Hidden { function } => {
                (&self.functions, function)
            }
            Argument { function, .. } => (&self.functions, function),
            RowFunction { row } | Subsumed { row } | Cell { row, .. } | RowOutput { row } => (&self.rows, row),
            Version | Padding => return None,
        };
        marks.get(at).copied()
    }
}

#[derive(Default)]
struct Reader {
    parts: Draft,
    names: Names,
    marks: Marks,
}

impl Reader {
    fn line(&mut self, line: Line) -> Result<(), TextFault> {
        let mut words = Words { line, at: 0 };
        let kind = words.next("the line's kind")?;
        match kind.text.as_str() {
            "sort" => self.sort(&mut words)?,
            "class" => self.class(&mut words)?,
            "literal" => self.literals(&mut words)?,
            "function" => self.function(&mut words)?,
            "row" => self.row(&mut words)?,
            "root" => self.root(&mut words)?,
            other => {
                let what = format!("a line begins with sort, class, literal, function, row or root, not '{other}'");
                return words.line.fault(kind.column, what);
            }
        }
        words.end()
    }

    fn sort(&mut self, words: &mut Words) -> Result<(), TextFault> {
        let name = words.name("the sort's name")?;
        if number(&name.text).is_some() {
            return words.line.fault(name.column, format!("a sort's name is no number, as '{}' is", name.text));
        }
        if self.names.sorts.contains(&name.text) {
            return words.line.fault(name.column, format!("there is a sort {} already", name.text));
        }
        let kind = words.name("'eq' or 'base'")?;
        self.marks.sorts.push((words.line.number, name.column));
        self.names.sorts.push(name.text);
        self.names.classes.push(Vec::new());
        let sort = self.parts.sorts.len();
        match kind.text.as_str() {
            "base" => self.parts.sorts.push(Sort::Base),
            "eq" => {
                self.parts.sorts.push(Sort::Eq(0));
                match words.peek().and_then(number) {
                    Some(classes) => {
                        words.next("the number of classes")?;
                        self.parts.sorts[sort] = Sort::Eq(classes);
                    }
                    None => self.add_classes(words, sort)?,
                }
            }
            other => return words.line.fault(kind.column, format!("a sort is 'eq' or 'base', not '{other}'")),
        }
        Ok(())
    }

    fn class(&mut self, words: &mut Words) -> Result<(), TextFault> {
        let word = words.name("the classes' sort")?;
        let sort = self.find_sort(words, &word)?;
        match self.parts.sorts.get(sort) {
            Some(Sort::Eq(classes)) if self.names.classes[sort].len() == *classes => self.add_classes(words, sort),
            Some(Sort::Eq(_)) => words.line.fault(word.column, format!("the classes of {} go by number", word.text)),
            _ => words.line.fault(word.column, format!("{} is a base sort and has no classes", word.text)),
        }
    }

    fn add_classes(&mut self, words: &mut Words, sort: usize) -> Result<(), TextFault> {
        while words.peek().is_some() {
            let name = words.name("a class's name")?;
            if number(&name.text).is_some() {
                return words.line.fault(name.column, format!("a class's name is no number, as '{}' is", name.text));
            }
            if self.names.classes[sort].contains(&name.text) {
                return words.line.fault(name.column, format!("there is a class {} already", name.text));
            }
            self.names.classes[sort].push(name.text);
        }
        self.parts.sorts[sort] = Sort::Eq(self.names.classes[sort].len());
        Ok(())
    }

    fn literals(&mut self, words: &mut Words) -> Result<(), TextFault> {
        loop {
            let word = words.name("a literal")?;
            let Ok(value) = word.text.parse::<i64>() else {
                return words.line.fault(word.column, not_a_literal(&word.text));
            };
            self.marks.literals.push((words.line.number, word.column));
            self.parts.literals.push(value);
            if words.peek().is_none() {
                return Ok(());
            }
        }
    }

    fn function(&mut self, words: &mut Words) -> Result<(), TextFault> {
        let name = words.name("the function's name")?;
        if self.parts.functions.iter().any(|function| function.name == name.text) {
            return words.line.fault(name.column, format!("there is a function {} already", name.text));
        }
        self.marks.functions.push((words.line.number, name.column));
        let mut function = Function { name: name.text, ..Function::default() };
        words.exactly("(")?;
        while !words.take(")") {
            let word = words.name("')' or an argument's sort")?;
            function.arguments.push(self.find_sort(words, &word)?);
        }
        words.exactly("->")?;
        let output = words.name("the output's sort")?;
        function.output = self.find_sort(words, &output)?;
        if self.parts.sorts.get(function.output) == Some(&Sort::Base) {
            return words
                .line
                .fault(output.column, format!("the output's sort is an eq sort, and {} is not", output.text));
        }
        while let Some(word) = words.peek().map(str::to_string) {
            let word = Word { text: word, ..words.next("")? };
            match word.text.as_str() {
                "cost" if function.cost.is_none() => function.cost = Some(cost(words)?),
                "unextractable" if !function.unextractable => function.unextractable = true,
                "hidden" if !function.hidden => function.hidden = true,
                _ => return words.line.fault(word.column, format!("'{}' must not stand here", word.text)),
            }
        }
        self.parts.functions.push(function);
        Ok(())
    }

    fn row(&mut self, words: &mut Words) -> Result<(), TextFault> {
        let class = words.name("the row's class")?;
        words.exactly("=")?;
        words.exactly("(")?;
        let name = words.name("a function's name")?;
        let Some(at) = self.parts.functions.iter().position(|function| function.name == name.text) else {
            return words.line.fault(name.column, format!("there is no function {} above", name.text));
        };
        let function = self.parts.functions[at].clone();
        let mut row = Row { function: at, ..Row::default() };
        while !words.take(")") {
            let word = words.name("')' or a cell")?;
            match function.arguments.get(row.arguments.len()) {
                Some(sort) => row.arguments.push(self.cell(words, *sort, &word)?),
                None => return words.line.fault(word.column, takes(&function, row.arguments.len() + 1)),
            }
        }
        if row.arguments.len() < function.arguments.len() {
            return words.line.fault(name.column, takes(&function, row.arguments.len()));
        }
        row.output = self.cell(words, function.output, &class)?;
        row.subsumed = words.take("subsumed");
        self.marks.rows.push((words.line.number, class.column));
        self.parts.rows.push(row);
        Ok(())
    }

    fn root(&mut self, words: &mut Words) -> Result<(), TextFault> {
        let word = words.name("the root's sort")?;
        let sort = self.find_sort(words, &word)?;
        let word = words.name("the root's class or literal")?;
        let value = self.cell(words, sort, &word)?;
        self.names.roots.push(Root { sort, value });
        Ok(())
    }

    fn find_sort(&self, words: &Words, word: &Word) -> Result<usize, TextFault> {
        match self.names.find_sort(&word.text) {
            Some(sort) if sort < self.parts.sorts.len() => Ok(sort),
            _ => words.line.fault(word.column, format!("there is no sort {} above", word.text)),
        }
    }

    fn cell(&mut self, words: &Words, sort: usize, word: &Word) -> Result<usize, TextFault> {
        let Some(Sort::Eq(classes)) = self.parts.sorts.get(sort).copied() else { return self.literal(words, word) };
        match self.names.find_class(sort, &word.text) {
            Some(class) if class < classes => Ok(class),
            _ => {
                let has = count(classes, "class", "classes");
                words.line.fault(
                    word.column,
                    format!(
                        "class {}, but {} has {has}{}",
                        word.text,
                        self.names.sort(sort),
                        if number(&word.text).is_none() { " and none of that name" } else { "" }
                    ),
                )
            }
        }
    }

    fn literal(&mut self, words: &Words, word: &Word) -> Result<usize, TextFault> {
        if let Some(index) = word.text.strip_prefix('#').and_then(number) {
            let there = self.parts.literals.len();
            if index < there {
                return Ok(index);
            }
            let what = format!("literal {}, but there are {there} above", word.text);
            return words.line.fault(word.column, what);
        }
        let Ok(value) = word.text.parse::<i64>() else {
            return words.line.fault(word.column, not_a_literal(&word.text));
        };
        if let Some(index) = self.parts.literals.iter().position(|literal| *literal == value) {
            return Ok(index);
        }
        self.marks.literals.push((words.line.number, word.column));
        self.parts.literals.push(value);
        Ok(self.parts.literals.len() - 1)
    }

    fn finish(self) -> Result<Named, TextFault> {
        let Reader { parts, names, marks } = self;
        let classes: usize = parts.sorts.iter().fold(0, |sum, sort| sort.classes().saturating_add(sum));
        match parts.build() {
            Ok(table) => Ok(Named { table, names }),
            Err(Fault { place, what, .. }) => {
                let (line, column) = marks.of(place).unwrap_or((1, 1));
                let what = match place {
                    Place::Classes { .. } => format!("{classes} classes in all, but there are at most {MOST_CLASSES}"),
                    _ => format!("{place}: {what}"),
                };
                Err(TextFault { line, column, what })
            }
        }
    }
}

fn cost(words: &mut Words) -> Result<u64, TextFault> {
    let word = words.name("the cost")?;
    match number(&word.text).and(word.text.parse().ok()) {
        Some(cost) => Ok(cost),
        None => {
            words.line.fault(word.column, format!("a cost is a whole number from 0 to 2^64-1, not '{}'", word.text))
        }
    }
}

fn not_a_literal(word: &str) -> String {
    format!("a literal is a whole number from -2^63 to 2^63-1 or '#' and an index, not '{word}'")
}

fn takes(function: &Function, given: usize) -> String {
    let takes = count(function.arguments.len(), "argument", "arguments");
    format!("{} takes {takes}, and here {} {given}", function.name, if given == 1 { "is" } else { "are" })
}
