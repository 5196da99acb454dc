//! Links `libzimatuno.a`.
//!
//! The archive is looked for in the folder that the environment variable `ZIMATUNO_LIB_DIR`
//! names, or else, for x86-64 Linux, in the folder to which `bindings/library` writes it:
//! `../../target/staticlib`. A relative folder counts from this crate's own.
//!
//! Where the archive is not there, rustc, which is told to put it into the compiled crate, fails,
//! and its error and a warning of cargo's say what to run. `cargo check`, `cargo clippy` and
//! `cargo doc` compile no code, so they go without it.

use std::env;
use std::path::PathBuf;

fn variable(name: &str) -> String {
    env::var(name).unwrap_or_default()
}

fn main() {
    println!("cargo:rerun-if-env-changed=ZIMATUNO_LIB_DIR");
    let usual = match (&*variable("CARGO_CFG_TARGET_OS"), &*variable("CARGO_CFG_TARGET_ARCH")) {
        ("linux", "x86_64") => "../../target/staticlib".to_string(),
        // `bindings/library` builds for no other target and writes to no such folder.
        _ => format!("../../target/staticlib-{}", variable("TARGET")),
    };
    let given = env::var_os("ZIMATUNO_LIB_DIR").unwrap_or_else(|| usual.into());
    let folder = PathBuf::from(variable("CARGO_MANIFEST_DIR")).join(given);
    let archive = folder.join("libzimatuno.a");
    println!("cargo:rerun-if-changed={}", archive.display());
    println!("cargo:rustc-link-search=native={}", folder.display());
    if archive.is_file() {
        println!("cargo:rustc-link-lib=static=zimatuno");
        return;
    }
    println!(
        "cargo:warning={} is not there: run bindings/library of the project, which builds it on \
         x86-64 Linux, or set ZIMATUNO_LIB_DIR to its folder",
        archive.display()
    );
    // There is no such library: the error that says so quotes its name, with `--quiet` too. There
    // is no such file: cargo looks again in each build, also if an older archive is put there.
    println!("cargo:rustc-link-lib=static=zimatuno (run bindings/library)");
    println!("cargo:rerun-if-changed=zimatuno (run bindings/library)");
}
