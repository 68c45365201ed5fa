//! The table file: our decoder beside the proved reader, and the text form both ways.
//!
//! Assumes the recorded answers of `examples/recorded` and the worked example of `examples/worked`.

use needlevale::{ask, text, verdict, Error, Mode, Names, Query, Reading, Refusal, Root, Table, PROGRAM_OUTPUT};
use std::path::PathBuf;

fn example(path: &str) -> Vec<u8> {
    let path = PathBuf::from(env!("CARGO_MANIFEST_DIR")).join("../../examples").join(path);
    std::fs::read(&path).unwrap_or_else(|fault| panic!("{}: {fault}", path.display()))
}

fn item<'a>(bytes: &mut &'a [u8]) -> Option<&'a [u8]> {
    let (length, rest) = bytes.split_at_checked(4)?;
    let length = u32::from_le_bytes(length.try_into().ok()?) as usize;
    let (item, rest) = rest.split_at_checked(length)?;
    *bytes = rest;
    Some(item)
}

/// Every recorded case: the program's input and its output.
fn recorded() -> Vec<(Vec<u8>, String)> {
    let mut cases = Vec::new();
    for part in 0..3 {
        let bytes = example(&format!("recorded/replay-{part}.bin"));
        let mut rest = &bytes[..];
        while let Some(input) = item(&mut rest) {
            let output = item(&mut rest).expect("a recorded answer");
            cases.push((input.to_vec(), String::from_utf8(output.to_vec()).expect("text")));
        }
        assert!(rest.is_empty());
    }
    assert_eq!(cases.len(), 2215);
    cases
}

fn query_of(input: &[u8]) -> Option<Query> {
    let root =
        Root { sort: usize::from(input[0] >> 1 & 31), value: usize::from(input[0] & 1) << 8 | usize::from(input[1]) };
    let mode = match input[0] >> 6 {
        0 => Mode::Best,
        1 => Mode::Variants(input[2]),
        2 => Mode::Plain,
        _ => return None,
    };
    Some(Query::new(mode, root))
}

/// Our decoder and the proved reader say the same of a file, and what is accepted goes to text and back exactly.
/// Tells whether the file was accepted.
fn agree(file: &[u8]) -> bool {
    let reading = Reading::of(file);
    let ours = reading.fault.as_ref().map(|fault| fault.refusal.expect("a file's fault has a refusal"));
    assert_eq!(ours, verdict(file).expect("a verdict"), "{file:02x?}");
    let Ok(table) = Table::decode(file) else { return false };
    assert_eq!(table.clone().into_draft().build().expect("an accepted table").encode(), file);
    let written = text::write(&reading.parts, &Names::plain(&reading.parts));
    let read = text::parse(&written).unwrap_or_else(|fault| panic!("{fault}\n{written}"));
    assert_eq!(read.table.encode(), file, "{written}");
    true
}

#[test]
fn decoder_and_proved_reader_agree_on_every_recorded_case() {
    let mut seen = [0; 18];
    for (input, _) in recorded().iter().filter(|(input, _)| input.len() >= 3) {
        match verdict(&input[3..]).expect("a verdict") {
            Some(refusal) => seen[usize::from(refusal.number())] += 1,
            None => seen[0] += 1,
        }
        agree(&input[3..]);
    }
    // Each of the file's refusals is among them.
    assert!(seen[0] > 1000 && seen[1..=9].iter().all(|count| *count > 0), "{seen:?}");
}

#[test]
fn decoder_and_proved_reader_agree_on_every_bit_flip_and_cut_of_the_worked_example() {
    let worked = example("worked/table.bin");
    assert!(agree(&worked));
    let (mut accepted, mut refused) = (0, 0);
    for bit in 0..worked.len() * 8 {
        let mut file = worked.clone();
        file[bit / 8] ^= 0x80 >> (bit % 8);
        if agree(&file) {
            accepted += 1;
        } else {
            refused += 1;
        }
    }
    assert_eq!(accepted + refused, 376);
    assert!(accepted > 100 && refused > 100, "{accepted} {refused}");
    for length in 0..worked.len() {
        assert!(!agree(&worked[..length]));
    }
    assert!(!agree(&[&worked[..], &[0]].concat()));
}

/// Recorded files with one to three bits flipped, or cut: 1,000, or as many as `NEEDLEVALE_CASES` says.
#[test]
fn decoder_and_proved_reader_agree_on_damaged_files() {
    let cases = std::env::var("NEEDLEVALE_CASES").map_or(1000, |n| n.parse().expect("a number of cases"));
    let recorded = recorded();
    let files: Vec<&[u8]> =
        recorded.iter().filter(|(input, _)| input.len() > 3).map(|(input, _)| &input[3..]).collect();
    let mut state: u64 = 20260;
    let mut below = |most: usize| {
        state = state.wrapping_mul(6364136223846793005).wrapping_add(1442695040888963407);
        (state >> 33) as usize % most
    };
    let mut accepted = 0;
    for _ in 0..cases {
        let mut file = files[below(files.len())].to_vec();
        for _ in 0..=below(3) {
            let bit = below(file.len() * 8);
            file[bit / 8] ^= 0x80 >> (bit % 8);
        }
        if below(8) == 0 {
            file.truncate(below(file.len()));
        }
        accepted += usize::from(agree(&file));
    }
    assert!(accepted > cases / 10 && accepted < cases * 9 / 10, "{accepted} of {cases}");
}

#[test]
fn wrapper_gives_the_recorded_answers() {
    let mut asked = 0;
    for (input, output) in recorded() {
        let Some(query) = (input.len() >= 3).then(|| query_of(&input)).flatten() else { continue };
        let got = match ask(&input[3..], query, PROGRAM_OUTPUT) {
            Ok(answer) => {
                match query.mode {
                    Mode::Variants(_) => drop(answer.variants().expect("parts")),
                    _ => drop(answer.best().expect("parts")),
                }
                answer.output
            }
            Err(Error::Refused(refusal)) => format!("refused {}\n", refusal.number()),
            Err(other) => panic!("{other}"),
        };
        assert_eq!(got, output);
        asked += 1;
    }
    assert!(asked > 1900, "{asked}");
}

/// What is computed for pictures and counts is held to the proved answers.
#[test]
fn computed_terms_are_the_recorded_ones() {
    use needlevale::compute::{Chosen, Prices};
    let (mut same, mut none) = (0, 0);
    for (input, _) in recorded().iter().filter(|(input, _)| input.len() >= 3) {
        let (Some(query), Ok(table)) = (query_of(input), Table::decode(&input[3..])) else { continue };
        let chosen = Chosen::of(&table, &Prices::of(&table, query.root.sort), query.root);
        match needlevale::plain(&input[3..], query.root) {
            Ok(answer) => {
                let chosen = chosen.expect("a computed term");
                assert_eq!(chosen.differs(&table, &answer), None);
                same += 1;
            }
            Err(Error::Refused(Refusal::NoRoom)) => {}
            Err(Error::Refused(_)) => {
                assert!(chosen.is_none());
                none += 1;
            }
            Err(other) => panic!("{other}"),
        }
    }
    assert!(same > 900 && none > 100, "{same} {none}");
}

#[test]
fn fault_tells_field_bit_and_value() {
    let worked = example("worked/table.bin");
    // The last cell of the last row, Add(1,1)->2, becomes 3.
    let mut file = worked;
    let last = file.len() - 1;
    file[last] |= 0x80;
    let fault = Table::decode(&file).unwrap_err();
    assert_eq!(fault.refusal, Some(Refusal::BadValue));
    assert_eq!(fault.value, Some(3));
    assert_eq!(fault.to_string(), "row 2, output cell: class 3, but sort 0 has 3 classes (bit 360)");
}

#[test]
fn a_difference_of_computed_and_proved_is_told() {
    use needlevale::compute::{Chosen, Prices};
    let table = Table::decode(&example("worked/table.bin")).expect("the worked example");
    let root = Root { sort: 0, value: 2 };
    let chosen = Chosen::of(&table, &Prices::of(&table, 0), root).expect("a term");
    let answer = needlevale::plain(table.encode(), root).expect("an answer");
    assert_eq!(chosen.differs(&table, &answer), None);
    let (mut cost, mut terms, mut text) = (answer.clone(), answer.clone(), answer);
    cost.cost += 1;
    assert_eq!(
        chosen.differs(&table, &cost),
        Some("the computed cost is 14, but the proved answer's is 15".to_string())
    );
    terms.terms -= 1;
    assert!(chosen.differs(&table, &terms).is_some());
    text.text = text.text.replace("5", "6");
    assert!(chosen.differs(&table, &text).is_some());
}

/// The deepest table, a chain of 512 classes, from a thread that has next to no stack.
#[test]
fn a_small_stack_of_the_caller_is_enough() {
    use needlevale::compute::{Chosen, Prices};
    let rows: String = (1..512).map(|class| format!("row {class} = (S {})\n", class - 1)).collect();
    let text =
        format!("needlevale table 1\nsort M eq 512\nfunction Z () -> M\nfunction S (M) -> M\nrow 0 = (Z)\n{rows}");
    let asked = move || {
        let table = text::parse(&text).expect("a table").table;
        let root = Root { sort: 0, value: 511 };
        let answer = needlevale::plain(table.encode(), root).expect("an answer");
        assert_eq!((answer.cost, answer.terms), (512, 512));
        let chosen = Chosen::of(&table, &Prices::of(&table, 0), root).expect("a term");
        assert_eq!((chosen.depth(), chosen.differs(&table, &answer)), (512, None));
    };
    std::thread::Builder::new().stack_size(64 * 1024).spawn(asked).expect("a thread").join().expect("no fault");
}
