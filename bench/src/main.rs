//! Times the proved library and the crate's Rust in one process on the same inputs, and measures the library's stack;
//! prints three tables in Markdown.
//!
//! Usage: bench ROUNDS KIND [FOLDER]. KIND, `native` or `emulated`, says how the program is run; an emulated row says
//! so. With a FOLDER two plots are written there, KIND in their names. Both sides must give the same answer first; if
//! they do not, one sentence and exit status 1.

mod inputs;
mod library;
mod original;
mod plot;
mod recorded;
mod rounds;
mod stack;
mod stacks;
mod stores;
mod terms;

use rounds::{Side, Took, rounds};
use std::hint::black_box;
use std::process::ExitCode;

/// The program's room for its output.
const ROOM: usize = 16_384;

const READING: &str = "Needlevale's time has the reading of the file in it, the Rust's second time has not";
const SMALL_WHY: &str = "whatever the table's size, the call clears all arrays of its own, which takes most of its \
time here";
const UNKNOWN: &str = "why is not known yet";

struct Row {
    name: String,
    answer: String,
    took: Vec<Took>,
    /// Why the library is slower, where that is known.
    why: Option<String>,
}

fn first_line(text: &str) -> String {
    text.lines().next().unwrap_or_default().to_string()
}

/// Times a question: the library, the Rust, and the Rust's calls without the file's reading.
fn question(count: usize, name: &str, input: &[u8]) -> Result<Row, String> {
    let mut output = vec![0; ROOM];
    let length = library::answer(input, &mut output);
    let ours = text_of(length, &output);
    let answer = original::answer(input);
    if ours != answer {
        let (ours, rust) = (first_line(&ours), first_line(&answer));
        return Err(format!("{name}: the answers differ; the library's begins '{ours}', the Rust's '{rust}'"));
    }
    let read = original::question(input).map_err(|refusal| format!("{name}: the file is refused: {refusal:?}"))?;
    let sides: Vec<Side> = vec![
        Box::new(|| {
            black_box(library::answer(black_box(input), black_box(&mut output)));
        }),
        Box::new(|| {
            black_box(original::answer(black_box(input)));
        }),
        Box::new(|| {
            black_box(original::calls(black_box(&read)));
        }),
    ];
    Ok(Row { name: name.to_string(), answer: first_line(&answer), took: rounds(count, sides), why: None })
}

/// Times many questions, which both sides answer alike, one after the other: the library, and the Rust.
fn many(count: usize, name: &str, inputs: &[Vec<u8>]) -> Row {
    let mut output = vec![0; ROOM];
    let sides: Vec<Side> = vec![
        Box::new(|| {
            for input in inputs {
                black_box(library::answer(black_box(input), black_box(&mut output)));
            }
        }),
        Box::new(|| {
            for input in inputs {
                black_box(original::answer(black_box(input)));
            }
        }),
    ];
    let answer = format!("{} answers", inputs.len());
    Row { name: name.to_string(), answer, took: rounds(count, sides), why: None }
}

/// What the library's call answered, as the program writes it.
fn text_of(length: i64, output: &[u8]) -> String {
    match usize::try_from(length) {
        Ok(length) => String::from_utf8_lossy(&output[..length]).into_owned(),
        Err(_) => format!("refused {}\n", -length),
    }
}

fn time(seconds: f64) -> String {
    if seconds < 1e-3 { format!("{:.1} µs", seconds * 1e6) } else { format!("{:.2} ms", seconds * 1e3) }
}

fn ratio(ratio: f64) -> String {
    if ratio < 0.1 { format!("{ratio:.5}") } else { format!("{ratio:.2}") }
}

impl Row {
    fn line(&self, kind: &str) -> String {
        let Row { name, answer, took, .. } = self;
        let side = |at: usize| took.get(at).map(|took| format!("{} | {}", time(took.seconds), ratio(took.ratio)));
        let (rust, read) = (side(1).unwrap_or_default(), side(2).unwrap_or("not timed | ".into()));
        let verdict = match self.fault() {
            None => "faster",
            Some(READING) => "faster with the reading, slower without",
            Some(_) => "slower",
        };
        format!("| {name}{} | `{answer}` | {} | {rust} | {read} | {verdict} |", said(kind), time(took[0].seconds))
    }

    /// Why the library is not faster on both counts, if it is not.
    fn fault(&self) -> Option<&str> {
        match self.took.iter().position(|took| took.ratio < 1.0)? {
            1 => self.why.as_deref().or(Some(UNKNOWN)),
            _ => Some(READING),
        }
    }
}

/// What each row of an emulated run says.
fn said(kind: &str) -> &'static str {
    if kind == "emulated" { " (emulated)" } else { "" }
}

/// The rows for small tables: document 01's worked example, which is the first recorded input, the recorded one of
/// middle length, and all of them in a row. Of the recorded inputs those that are answered and not refused, where the
/// Rust answers the same (docs/DIFFERENCES.md says where it does not).
fn small(count: usize) -> Result<Vec<Row>, String> {
    let mut output = vec![0; ROOM];
    let mut answered = recorded::all()?;
    answered.retain(|input| {
        let length = library::answer(input, &mut output);
        length >= 0 && text_of(length, &output) == original::answer(input)
    });
    let mut by_length = answered.clone();
    by_length.sort_by_key(Vec::len);
    let (first, middle) = (answered.first(), by_length.get(by_length.len() / 2));
    let (Some(first), Some(middle)) = (first, middle) else {
        return Err("no recorded input is answered".into());
    };
    let rows = vec![
        question(count, &format!("the worked example, {} bytes", first.len()), first)?,
        question(count, &format!("the recorded input of middle length, {} bytes", middle.len()), middle)?,
        many(count, &format!("all {} recorded inputs that both answer alike, in a row", answered.len()), &answered),
    ];
    Ok(rows.into_iter().map(|row| Row { why: Some(SMALL_WHY.into()), ..row }).collect())
}

fn table(count: usize, kind: &str, folder: Option<&str>) -> Result<(), String> {
    let mut rows = small(count)?;
    rows.extend([
        question(count, "the longest file, 21,385 bytes", &inputs::longest())?,
        question(count, "a file of 19,107 bytes, with terms", &inputs::long())?,
        question(count, "512 classes, 1,024 rows, few passes", &inputs::few_passes())?,
        question(count, "a reversed chain, 513 passes", &inputs::reversed_chain())?,
        question(count, "variants, n = 255 of 1,024 rows", &inputs::variants())?,
        question(count, "let text with deep sharing", &inputs::sharing())?,
        stores::adds(count, "1,024 adds into a flat store")?,
        stores::adds_of_structs(count, "1,024 adds into a store of structs")?,
        stores::comparing(count, "comparing two chains of 512 terms that differ at their ends", 512)?,
        stores::sorting(count, "sorting 1,024 terms", 1024)?,
    ]);
    println!("| Input | Answer | Needlevale | Rust | ratio | Rust, file read before | ratio | Needlevale is |");
    println!("|---|---|---|---|---|---|---|---|");
    rows.iter().for_each(|row| println!("{}", row.line(kind)));
    println!();
    for (row, why) in rows.iter().filter_map(|row| Some((row, row.fault()?))) {
        println!("- Not faster on '{}': {why}.", row.name);
    }
    println!();
    let bars: Vec<(String, f64)> = rows.iter().map(|row| (row.name.clone(), row.took[1].ratio)).collect();
    let lines = growth(count, kind)?;
    if let Some(folder) = folder {
        let title = format!("The Rust's time over Needlevale's, the reading included{}", said(kind));
        write(folder, &format!("ratios-{kind}.svg"), &plot::ratios(&title, &bars))?;
        let title = format!("Needlevale's time at parts of a limit{}", said(kind));
        write(folder, &format!("growth-{kind}.svg"), &plot::growth(&title, &PARTS.map(|part| part.0), &lines))?;
    }
    stacks::table(kind)
}

fn write(folder: &str, name: &str, text: &str) -> Result<(), String> {
    let path = format!("{folder}/{name}");
    std::fs::write(&path, text).map_err(|fault| format!("{path} cannot be written: {fault}"))
}

/// Parts of a limit, by name and in eighths.
const PARTS: [(&str, usize); 4] = [("1/8", 1), ("1/4", 2), ("1/2", 4), ("all", 8)];

/// Times questions at parts of the limits; of each limit the library's times.
fn growth(count: usize, kind: &str) -> Result<Vec<(String, Vec<f64>)>, String> {
    let mut lines: Vec<(String, Vec<f64>)> = Vec::new();
    let mut cells: Vec<String> = Vec::new();
    for (_, eighths) in PARTS {
        let mut rows = Vec::new();
        for (name, input) in inputs::growing(eighths) {
            rows.push(question(count, name, &input)?);
        }
        rows.push(stores::comparing(count, "depth of two chains, compared", 64 * eighths)?);
        rows.push(stores::sorting(count, "numbers in a list, sorted", 128 * eighths)?);
        for (at, Row { name, took, .. }) in rows.into_iter().enumerate() {
            if at == lines.len() {
                lines.push((name, Vec::new()));
                cells.push(String::new());
            }
            lines[at].1.push(took[0].seconds);
            cells[at] += &format!(" {} ({}) |", time(took[0].seconds), ratio(took[1].ratio));
        }
    }
    println!("| Of this limit: Needlevale's time (ratio) | 1/8 | 1/4 | 1/2 | all |");
    println!("|---|---|---|---|---|");
    lines.iter().zip(&cells).for_each(|((name, _), cells)| println!("| {name}{} |{cells}", said(kind)));
    println!();
    Ok(lines)
}

fn main() -> ExitCode {
    let words: Vec<String> = std::env::args().skip(1).collect();
    let words: Vec<&str> = words.iter().map(String::as_str).collect();
    let (count, kind, folder) = match words[..] {
        [count, kind] => (count, kind, None),
        [count, kind, folder] => (count, kind, Some(folder)),
        _ => ("", "", None),
    };
    let count = count.parse().ok().filter(|count| (1..=999).contains(count));
    let (Some(count), "native" | "emulated") = (count, kind) else {
        eprintln!("bench: give the number of rounds, 1 to 999, then native or emulated, then perhaps a folder");
        return ExitCode::from(2);
    };
    match table(count, kind, folder) {
        Ok(()) => ExitCode::SUCCESS,
        Err(fault) => {
            eprintln!("bench: {fault}");
            ExitCode::FAILURE
        }
    }
}
