//! A table as it is given: a table file, or the text form, which is told by its first line.

use crate::stop::{failed, refused, usage, Done};
use crate::streams;
use needlevale::{text, verdict, Draft, Named, Names, Reading, Refusal, Root, Sort, Table};

/// The longest text that is read.
pub const LONGEST_TEXT: usize = 16 << 20;

/// A table file with what is known of it.
pub struct Source {
    pub path: String,
    /// The table file, given or made from the text.
    pub file: Vec<u8>,
    /// The table and its names, as far as it was read.
    pub parts: Draft,
    pub names: Names,
    /// The table, where our decoder accepts it.
    pub table: Option<Table>,
    reading: Option<Reading>,
}

impl Source {
    pub fn read(path: &str) -> Done<Source> {
        let bytes = streams::read(path, LONGEST_TEXT)?;
        match text::is_text(&bytes) {
            true => Source::of_named(path, parse(path, bytes)?),
            false => Ok(Source::of_file(path, bytes)),
        }
    }

    pub fn of_named(path: &str, named: Named) -> Done<Source> {
        let Named { table, names } = named;
        Ok(Source {
            path: titled(path),
            file: table.encode().to_vec(),
            parts: table.clone().into_draft(),
            names,
            table: Some(table),
            reading: None,
        })
    }

    fn of_file(path: &str, file: Vec<u8>) -> Source {
        let reading = Reading::of(&file);
        Source {
            path: titled(path),
            table: Table::decode(&file).ok(),
            names: Names::plain(&reading.parts),
            parts: reading.parts.clone(),
            reading: Some(reading),
            file,
        }
    }

    /// The table, or the proved reader's refusal with the place that our decoder adds.
    pub fn table(&self) -> Done<&Table> {
        if let Some(refusal) = verdict(&self.file).map_err(crate::stop::broken)? {
            return crate::stop::refusal(refusal, self.place(refusal));
        }
        match &self.table {
            Some(table) => Ok(table),
            None => failed(format!(
                "{}: the proved reader accepts the file, but the computed fault is {}; please report this",
                self.path,
                self.fault_words()
            )),
        }
    }

    /// What to say of a refused file: the refusal's number, which is the proved reader's, and our place.
    pub fn place(&self, refusal: Refusal) -> String {
        let head = format!("{}: refused {}, {}", self.path, refusal.number(), refusal.name());
        let fault = self.reading.as_ref().and_then(|reading| reading.fault.as_ref());
        match fault {
            Some(fault) if fault.refusal == Some(refusal) => format!("{head}: {fault}{}", self.hint()),
            _ => format!("{head}: {}; the computed fault differs: {}", refusal.exactly_when(), self.fault_words()),
        }
    }

    fn fault_words(&self) -> String {
        let fault = self.reading.as_ref().and_then(|reading| reading.fault.as_ref());
        fault.map_or("none".to_string(), |fault| fault.to_string())
    }

    /// For files that were meant as something else.
    fn hint(&self) -> &'static str {
        let words = self.file.iter().find(|byte| !byte.is_ascii_whitespace());
        let query = self.file.len() > 3 && verdict(&self.file[3..]).ok() == Some(None);
        match words {
            _ if query => {
                "; a query of three bytes stands before the table file, which takes none here: tail -c +4 cuts it off"
            }
            Some(b'{') => "; it looks like JSON, which 'needlevale import' reads",
            Some(b'a'..=b'z' | b'A'..=b'Z' | b'(' | b';' | b'#') => {
                "; if it is meant as text, its first line must be 'needlevale table 1'"
            }
            _ => "",
        }
    }

    /// The root that the words say, by number or by name, or the text's own.
    pub fn root(&self, sort: Option<&str>, class: Option<&str>) -> Done<Root> {
        let Some(class) = class else {
            return match (sort, &self.names.roots[..]) {
                (None, [root]) => Ok(*root),
                (None, [first, ..]) => {
                    let (roots, first) = (self.names.roots.len(), self.root_words(*first));
                    usage(format!("{} has {roots} roots, {first} the first: say which by --class", self.path))
                }
                _ if !self.whole() => Ok(Root { sort: 0, value: 0 }),
                _ => usage(format!("say which class of {} is asked for: --class C{}", self.path, self.classes_words())),
            };
        };
        match sort {
            Some(word) => {
                let sort = match self.names.find_sort(word) {
                    Some(sort) => sort,
                    None => return usage(format!("{} has no sort '{word}'", self.path)),
                };
                match self.names.find_class(sort, class).or_else(|| number(class)) {
                    Some(value) => Ok(Root { sort, value }),
                    None => usage(format!("sort '{word}' has no class '{class}'")),
                }
            }
            None => self.root_of_class(class),
        }
    }

    /// The class of a name in any sort, or of a number in the first.
    fn root_of_class(&self, class: &str) -> Done<Root> {
        if let Some(value) = number(class) {
            return Ok(Root { sort: 0, value });
        }
        let mut found = Vec::new();
        for (sort, classes) in self.names.classes.iter().enumerate() {
            found.extend(classes.iter().position(|name| name == class).map(|value| Root { sort, value }));
        }
        match found[..] {
            [root] => Ok(root),
            [] => usage(format!("{} has no class '{class}'", self.path)),
            _ => usage(format!("class '{class}' is in {} sorts of {}; say which by --sort", found.len(), self.path)),
        }
    }

    /// Whether the whole table was read: a refused file is refused before its root is looked at.
    fn whole(&self) -> bool {
        self.table.is_some()
    }

    fn classes_words(&self) -> String {
        match self.parts.sorts.first() {
            Some(Sort::Eq(classes)) if *classes > 0 => match self.names.classes.first() {
                Some(names) if !names.is_empty() => format!(", such as {}", names[0]),
                _ => format!(", 0 to {}", classes - 1),
            },
            _ => String::new(),
        }
    }

    /// A root in words.
    pub fn root_words(&self, root: Root) -> String {
        format!("{} of sort {}", self.names.cell(&self.parts, root.sort, root.value), self.names.sort(root.sort))
    }
}

/// A path as the beginning of a message has it.
pub fn titled(path: &str) -> String {
    if path == "-" {
        "standard input".to_string()
    } else {
        path.to_string()
    }
}

fn number(word: &str) -> Option<usize> {
    word.bytes().all(|byte| byte.is_ascii_digit()).then(|| word.parse().unwrap_or(usize::MAX))
}

/// Reads the text form.
pub fn parse(path: &str, bytes: Vec<u8>) -> Done<Named> {
    let path = titled(path);
    if bytes.len() > LONGEST_TEXT {
        return refused(format!("{path}: the text is longer than {LONGEST_TEXT} bytes"));
    }
    let read = match String::from_utf8(bytes) {
        Ok(read) => read,
        Err(fault) => {
            let before = &fault.as_bytes()[..fault.utf8_error().valid_up_to()];
            let line = before.iter().filter(|byte| **byte == b'\n').count() + 1;
            let column = String::from_utf8_lossy(before).rsplit('\n').next().map_or(0, |line| line.chars().count()) + 1;
            return refused(format!("{path}:{line}:{column}: what stands here is no UTF-8 text"));
        }
    };
    text::parse(&read).or_else(|fault| refused(format!("{path}:{fault}")))
}
