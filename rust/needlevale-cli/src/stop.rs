//! How the program ends where there is no answer: an exit status and one sentence.

use needlevale::{Error, Refusal};

/// Exit status 1: NoTerm, as grep's 'no match'.
pub const NO_TERM: u8 = 1;
/// Exit status 2: wrong usage.
pub const USAGE: u8 = 2;
/// Exit status 3: any other refusal, of a table, a text or a JSON file.
pub const REFUSED: u8 = 3;
/// Exit status 4: input or output failed, which is never a verdict on the file.
pub const FAILED: u8 = 4;

/// An end without an answer.
#[derive(Debug)]
pub struct Stop {
    pub status: u8,
    pub sentence: String,
    /// The refusal, for `--json`.
    pub refusal: Option<Refusal>,
}

pub type Done<T> = Result<T, Stop>;

fn stop<T>(status: u8, sentence: impl Into<String>) -> Done<T> {
    Err(Stop { status, sentence: sentence.into(), refusal: None })
}

pub fn usage<T>(sentence: impl Into<String>) -> Done<T> {
    stop(USAGE, sentence)
}

pub fn refused<T>(sentence: impl Into<String>) -> Done<T> {
    stop(REFUSED, sentence)
}

pub fn failed<T>(sentence: impl Into<String>) -> Done<T> {
    stop(FAILED, sentence)
}

/// The end that a refusal is.
pub fn refusal<T>(refusal: Refusal, sentence: impl Into<String>) -> Done<T> {
    let status = if refusal == Refusal::NoTerm { NO_TERM } else { REFUSED };
    Err(Stop { status, sentence: sentence.into(), refusal: Some(refusal) })
}

/// The end that any other error of the library is.
pub fn broken(error: Error) -> Stop {
    match error {
        Error::Refused(refusal) => {
            let status = if refusal == Refusal::NoTerm { NO_TERM } else { REFUSED };
            Stop { status, sentence: refusal.to_string(), refusal: Some(refusal) }
        }
        other => Stop { status: FAILED, sentence: other.to_string(), refusal: None },
    }
}
