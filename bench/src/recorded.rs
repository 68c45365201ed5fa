//! The recorded inputs of the program: what `crates/run_program` is run on.

use paper::stream::items;

/// All of them, document 01's worked example first. Assumes the repository's own folder.
pub fn all() -> Result<Vec<Vec<u8>>, String> {
    let path = concat!(env!("CARGO_MANIFEST_DIR"), "/../crates/run_program/stdin");
    let bytes = std::fs::read(path).map_err(|fault| format!("{path} cannot be read: {fault}"))?;
    Ok(items(&bytes)?.into_iter().map(<[u8]>::to_vec).collect())
}
