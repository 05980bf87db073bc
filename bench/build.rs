//! Compiles the one-pass C implementation with `cc -O3` for the baseline processor and links it. It stops on a machine
//! that is not x86-64: the archive would run under an emulator there, and its times would say nothing.

use std::env;
use std::path::Path;
use std::process::{exit, Command};

fn run(command: &mut Command) {
    let shown = format!("{command:?}");
    match command.status() {
        Ok(status) if status.success() => {}
        Ok(status) => {
            eprintln!("{shown}: {status}");
            exit(1);
        }
        Err(error) => {
            eprintln!("{shown} can't be run: {error}");
            exit(1);
        }
    }
}

fn main() {
    if env::var("CARGO_CFG_TARGET_ARCH").as_deref() != Ok("x86_64") {
        eprintln!("the archive is for x86-64; its times under an emulator would say nothing");
        exit(1);
    }
    println!("cargo:rerun-if-changed=c/onepass.c");
    println!("cargo:rerun-if-changed=../include/cushiedoo.h");
    let out = env::var("OUT_DIR").expect("cargo sets OUT_DIR");
    let object = Path::new(&out).join("onepass.o");
    let archive = Path::new(&out).join("libonepass.a");
    let warnings = ["-std=c99", "-Wall", "-Wextra", "-Werror"];
    run(Command::new("cc")
        .args(warnings)
        .args(["-O3", "-fPIC", "-I../include", "-c", "c/onepass.c", "-o"])
        .arg(&object));
    let _ = std::fs::remove_file(&archive);
    run(Command::new("ar").arg("crs").arg(&archive).arg(&object));
    println!("cargo:rustc-link-search=native={out}");
    println!("cargo:rustc-link-lib=static=onepass");
}
