//! Names of sorts and classes. The table file has none; the text form may give them.

use crate::ask::Root;
use crate::table::{Draft, Sort, Table};

/// A table, and what its text calls the sorts and classes.
#[derive(Clone, PartialEq, Eq, Debug)]
pub struct Named {
    /// The table.
    pub table: Table,
    /// The names.
    pub names: Names,
}

/// The names of sorts, and of the classes of those sorts that name them.
#[derive(Clone, PartialEq, Eq, Debug, Default)]
pub struct Names {
    /// One a sort.
    pub sorts: Vec<String>,
    /// One list a sort: a name for each class, or none at all where classes go by number.
    pub classes: Vec<Vec<String>>,
    /// What the text is about, where it says so.
    pub roots: Vec<Root>,
}

impl Names {
    /// Names for what has none: `s0`, `s1`, and classes by number.
    pub fn plain(parts: &Draft) -> Names {
        Names {
            sorts: (0..parts.sorts.len()).map(|sort| format!("s{sort}")).collect(),
            classes: vec![Vec::new(); parts.sorts.len()],
            roots: Vec::new(),
        }
    }

    /// A sort's name.
    pub fn sort(&self, sort: usize) -> String {
        self.sorts.get(sort).cloned().unwrap_or_else(|| format!("s{sort}"))
    }

    /// A class's name, or its number.
    pub fn class(&self, sort: usize, class: usize) -> String {
        self.classes.get(sort).and_then(|names| names.get(class)).cloned().unwrap_or_else(|| class.to_string())
    }

    /// A cell as the text form writes it: a class, or a literal by its value or, where another comes before it, `#index`.
    pub fn cell(&self, parts: &Draft, sort: usize, cell: usize) -> String {
        match (parts.sorts.get(sort), parts.literals.get(cell)) {
            (Some(Sort::Base), Some(value)) if parts.literals.iter().position(|v| v == value) == Some(cell) => {
                value.to_string()
            }
            (Some(Sort::Base), _) => format!("#{cell}"),
            _ => self.class(sort, cell),
        }
    }

    /// The sort of a name or number.
    pub fn find_sort(&self, word: &str) -> Option<usize> {
        self.sorts.iter().position(|name| name == word).or_else(|| number(word))
    }

    /// The class of a name or number.
    pub fn find_class(&self, sort: usize, word: &str) -> Option<usize> {
        self.classes.get(sort)?.iter().position(|name| name == word).or_else(|| number(word))
    }
}

impl Named {
    /// A table without names of its own.
    pub fn plain(table: Table) -> Named {
        let parts = table.clone().into_draft();
        Named { names: Names::plain(&parts), table }
    }
}

/// A whole number in decimal without sign.
pub(crate) fn number(word: &str) -> Option<usize> {
    word.bytes().all(|byte| byte.is_ascii_digit()).then(|| word.parse().ok()).flatten()
}
