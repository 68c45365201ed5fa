//! The Rust's own faults: panics caught and named, and the answers that document 01 does not take over.

use std::cell::RefCell;
use std::panic::{self, AssertUnwindSafe};
use std::sync::Once;

/// Where the Rust fails, or answers what document 01 refuses.
#[derive(Clone, PartialEq, Eq, Debug)]
pub enum Fault {
    /// It reports a cost of 2^64-1.
    DearCost,
    /// A class that costs 2^64-1 has no edge, and the build of the term panics.
    NoEdge(String),
    /// A tree size passes 64 bits, and the sum panics.
    SizeOverflow(String),
    /// A plain text too long to be made: the Rust would make it in memory, so it was not called.
    LongText,
    /// It panics anywhere else.
    Unknown(String),
}

impl Fault {
    pub const KINDS: [&'static str; 5] =
        ["cost 2^64-1 reported", "no edge", "tree size overflows", "plain text too long to make", "unknown panic"];

    /// The place of its kind in `KINDS`.
    pub fn kind(&self) -> usize {
        match self {
            Fault::DearCost => 0,
            Fault::NoEdge(_) => 1,
            Fault::SizeOverflow(_) => 2,
            Fault::LongText => 3,
            Fault::Unknown(_) => 4,
        }
    }

    pub fn said(&self) -> &str {
        match self {
            Fault::NoEdge(text) | Fault::SizeOverflow(text) | Fault::Unknown(text) => text,
            Fault::DearCost | Fault::LongText => Self::KINDS[self.kind()],
        }
    }

    /// Which fault a panic is, told by its text.
    fn of_panic(text: String) -> Self {
        if text.starts_with("extract.rs") && text.contains("`Option::unwrap()` on a `None` value") {
            Fault::NoEdge(text)
        } else if text.contains("attempt to add with overflow") {
            Fault::SizeOverflow(text)
        } else {
            Fault::Unknown(text)
        }
    }
}

thread_local! {
    static SAID: RefCell<String> = const { RefCell::new(String::new()) };
}

static QUIET: Once = Once::new();

/// Runs a piece of the Rust; a panic comes back as its place and text.
pub fn caught<T>(piece: impl FnOnce() -> T) -> Result<T, String> {
    QUIET.call_once(|| {
        panic::set_hook(Box::new(|info| {
            let place = info.location().map(|l| {
                let file = l.file().rsplit('/').next().unwrap_or_default();
                format!("{file}:{}", l.line())
            });
            let payload = info.payload();
            let plain = payload.downcast_ref::<&str>().copied();
            let text = plain.or(payload.downcast_ref::<String>().map(String::as_str)).unwrap_or("a panic without text");
            SAID.with(|said| *said.borrow_mut() = format!("{}: {text}", place.unwrap_or_default()));
        }));
    });
    panic::catch_unwind(AssertUnwindSafe(piece)).map_err(|_| SAID.with(|said| said.borrow().clone()))
}

/// The same, with the fault named.
pub fn guarded<T>(piece: impl FnOnce() -> T) -> Result<T, Fault> {
    caught(piece).map_err(Fault::of_panic)
}
