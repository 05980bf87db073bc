//! Links the archive `librip.a`, which `tools/build rip` makes in the repository's `target/staticlib`. Another folder
//! is named by the environment variable `CUSHIEDOO_LIB_DIR`; on a machine that is not x86-64, one that `x86/bridge` made.

use std::path::PathBuf;
use std::{env, process};

fn main() {
    println!("cargo:rerun-if-env-changed=CUSHIEDOO_LIB_DIR");
    let folder = match env::var_os("CUSHIEDOO_LIB_DIR") {
        Some(folder) => PathBuf::from(folder),
        None => PathBuf::from(env!("CARGO_MANIFEST_DIR")).join("../../target/staticlib"),
    };
    let archive = folder.join("librip.a");
    println!("cargo:rerun-if-changed={}", archive.display());
    if !archive.is_file() {
        eprintln!(
            "{} is not there: run `tools/build rip` first, or name its folder in CUSHIEDOO_LIB_DIR",
            archive.display()
        );
        process::exit(1);
    }
    println!("cargo:rustc-link-search=native={}", folder.display());
    println!("cargo:rustc-link-lib=static=rip");
}
