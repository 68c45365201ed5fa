//! A stream of byte strings: each is its length as u32, little-endian, then its bytes.

use std::io::{self, Read, Write};

pub fn put(out: &mut impl Write, item: &[u8]) -> io::Result<()> {
    out.write_all(&(item.len() as u32).to_le_bytes())?;
    out.write_all(item)
}

/// Cuts a stream into its items; the error says which item the stream is too short for.
pub fn items(bytes: &[u8]) -> Result<Vec<&[u8]>, String> {
    let mut rest = bytes;
    let mut found = Vec::new();
    while !rest.is_empty() {
        let cut = |what| {
            let item = found.len();
            format!(
                "item {item} of the stream is cut off in its {what}: an item is a u32 little-endian length and as many bytes"
            )
        };
        let (length, after) = rest.split_at_checked(4).ok_or_else(|| cut("length"))?;
        let length = u32::from_le_bytes(length.try_into().unwrap_or_default()) as usize;
        let (item, after) = after.split_at_checked(length).ok_or_else(|| cut("bytes"))?;
        found.push(item);
        rest = after;
    }
    Ok(found)
}

/// All of standard input.
pub fn input() -> io::Result<Vec<u8>> {
    let mut bytes = Vec::new();
    io::stdin().lock().read_to_end(&mut bytes)?;
    Ok(bytes)
}

pub fn hex(bytes: &[u8]) -> String {
    bytes.iter().map(|b| format!("{b:02x}")).collect()
}
