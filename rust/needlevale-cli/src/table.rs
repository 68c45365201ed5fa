//! `table make` and `table show`.

use crate::args::TableCommand;
use crate::source::{parse, titled, Source, LONGEST_TEXT};
use crate::stop::{failed, refused, Done};
use crate::streams::{read, say, write};
use needlevale::{text, verdict};

pub fn run(command: &TableCommand) -> Done<()> {
    match command {
        TableCommand::Make { text, output } => make(text, output),
        TableCommand::Show { table } => show(table),
    }
}

fn make(path: &str, output: &str) -> Done<()> {
    let bytes = read(path, LONGEST_TEXT)?;
    if !text::is_text(&bytes) && bytes.first().is_some_and(|byte| *byte >> 4 == 1) {
        return refused(format!("{}: this is a table file already, not its text form", titled(path)));
    }
    let (named, path) = (parse(path, bytes)?, titled(path));
    // What our encoder wrote is held to the proved reader before it is let out.
    match verdict(named.table.encode()) {
        Ok(None) => write(Some(output), named.table.encode()),
        other => failed(format!("{path}: the proved reader says {other:?} of what was made; please report this")),
    }
}

fn show(path: &str) -> Done<()> {
    let source = Source::read(path)?;
    let shown = text::write(&source.parts, &source.names);
    let judged = source.table();
    match &judged {
        Ok(_) => say(shown),
        Err(stop) => {
            say(format!(
                "{shown}; here the file's fault stands: refused {}\n",
                stop.refusal.map_or(0, |r| r.number())
            ))?;
            judged.map(|_| ())
        }
    }
}
