//! Tells the linker where the proved library is: `NEEDLEVALE_LIBRARY`, a folder, or the crate's own out/.
use std::env;
use std::path::PathBuf;

fn main() {
    println!("cargo:rerun-if-env-changed=NEEDLEVALE_LIBRARY");
    let manifest = PathBuf::from(env::var_os("CARGO_MANIFEST_DIR").unwrap_or_default());
    let folder =
        env::var_os("NEEDLEVALE_LIBRARY").map_or_else(|| manifest.join("../../crates/needlevale_c/out"), PathBuf::from);
    let archive = folder.join("libneedlevale_c.a");
    println!("cargo:rerun-if-changed={}", archive.display());
    if !archive.is_file() {
        println!(
            "cargo:warning={} is not there: 'rt lib' in crates/needlevale_c makes it, and nothing links without it",
            archive.display()
        );
    }
    println!("cargo:rustc-link-search=native={}", folder.display());
    // Not bundled: `cargo check` and clippy need no library, and the linker takes it where a program is made.
    println!("cargo:rustc-link-lib=static:-bundle=needlevale_c");
}
