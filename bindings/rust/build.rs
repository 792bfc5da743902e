//! Links the archive that `bindings/build_archive` writes: from the folder that `HOP_ARCHIVE` names, else from this repository's `crates/hop_c/out`.
use std::path::PathBuf;
use std::{env, process};

fn main() {
    println!("cargo:rerun-if-env-changed=HOP_ARCHIVE");
    let here = env::var_os("CARGO_MANIFEST_DIR").map(PathBuf::from).unwrap_or_default();
    // A folder that is named from here goes to the linker in full: it may run elsewhere.
    let folder = here.join(env::var_os("HOP_ARCHIVE").unwrap_or_else(|| "../../crates/hop_c/out".into()));
    let archive = folder.join("libhop_c.a");
    println!("cargo:rerun-if-changed={}", archive.display());
    if !archive.is_file() {
        eprintln!("there is no {}: build it with `bindings/build_archive`, or name its folder in HOP_ARCHIVE", archive.display());
        process::exit(1);
    }
    println!("cargo:rustc-link-search=native={}", folder.display());
    println!("cargo:rustc-link-lib=static=hop_c");
}
