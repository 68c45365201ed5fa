//! Input and output. A failure here is status 4, never a verdict on a file, and never told as success.

use crate::stop::{failed, Done};
use std::fs::File;
use std::io::{self, Read, Write};
use std::sync::atomic::{AtomicBool, Ordering};

static INPUT_CLOSED: AtomicBool = AtomicBool::new(false);
static OUTPUT_CLOSED: AtomicBool = AtomicBool::new(false);

/// Looks whether standard input and output are open before Rust's start puts /dev/null in the place of closed ones.
extern "C" fn look() {
    // SAFETY: F_GETFD takes no third argument and changes nothing.
    let closed = |number| unsafe { libc::fcntl(number, libc::F_GETFD) == -1 };
    INPUT_CLOSED.store(closed(0), Ordering::Relaxed);
    OUTPUT_CLOSED.store(closed(1), Ordering::Relaxed);
}

#[used]
#[link_section = ".init_array"]
static LOOK: extern "C" fn() = look;

/// The bytes of a file, `-` for standard input, at most `most`; whether there are more is told by one byte over.
pub fn read(path: &str, most: usize) -> Done<Vec<u8>> {
    let mut bytes = Vec::new();
    let limit = most as u64 + 1;
    let read = match path {
        "-" if INPUT_CLOSED.load(Ordering::Relaxed) => return failed("standard input is closed"),
        "-" => io::stdin().lock().take(limit).read_to_end(&mut bytes),
        path => File::open(path).and_then(|file| file.take(limit).read_to_end(&mut bytes)),
    };
    match read {
        Ok(_) => Ok(bytes),
        Err(fault) => failed(format!("{} cannot be read: {}", called(path), reason(&fault))),
    }
}

/// A path as messages have it.
pub fn called(path: &str) -> String {
    if path == "-" {
        "standard input".to_string()
    } else {
        format!("'{path}'")
    }
}

/// The system's words, without its number.
pub fn reason(fault: &io::Error) -> String {
    let said = fault.to_string();
    said.split(" (os error").next().unwrap_or(&said).to_string()
}

/// Writes all to standard output.
pub fn say(text: impl AsRef<[u8]>) -> Done<()> {
    if OUTPUT_CLOSED.load(Ordering::Relaxed) {
        return failed("standard output is closed");
    }
    let mut out = io::stdout().lock();
    match out.write_all(text.as_ref()).and_then(|()| out.flush()) {
        Ok(()) => Ok(()),
        Err(fault) => failed(format!("standard output cannot be written: {}", reason(&fault))),
    }
}

/// Writes all to a file, or to standard output where none or `-` is given.
pub fn write(path: Option<&str>, bytes: &[u8]) -> Done<()> {
    match path {
        None | Some("-") => say(bytes),
        Some(path) => {
            match File::create(path).and_then(|mut file| file.write_all(bytes).and_then(|()| file.sync_all())) {
                Err(fault) if fault.kind() != io::ErrorKind::InvalidInput => {
                    failed(format!("'{path}' cannot be written: {}", reason(&fault)))
                }
                _ => Ok(()),
            }
        }
    }
}
