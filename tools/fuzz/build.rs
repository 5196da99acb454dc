//! Links `libzimatuno.a` from the folder that the environment variable `ZIMATUNO_LIB_DIR` names,
//! or else from the one that `bindings/library` writes it to. A relative folder counts from this
//! crate's own. Where the archive is not there, linking fails, and the error says what to run;
//! `cargo check`, `cargo clippy` and `cargo doc` link nothing, so they go without it.

use std::env;
use std::path::PathBuf;

fn main() {
    println!("cargo:rerun-if-env-changed=ZIMATUNO_LIB_DIR");
    let usual = "../../target/staticlib";
    let given = env::var_os("ZIMATUNO_LIB_DIR").unwrap_or_else(|| usual.into());
    let folder = PathBuf::from(env::var_os("CARGO_MANIFEST_DIR").unwrap_or_default()).join(given);
    let archive = folder.join("libzimatuno.a");
    println!("cargo:rerun-if-changed={}", archive.display());
    println!("cargo:rustc-link-search=native={}", folder.display());
    if archive.is_file() {
        println!("cargo:rustc-link-lib=static=zimatuno");
        return;
    }
    println!(
        "cargo:warning={} is not there: run bindings/library, which builds it, or set \
         ZIMATUNO_LIB_DIR to its folder",
        archive.display()
    );
    // There is no such library: the error that says so quotes its name, with `--quiet` too. There
    // is no such file: cargo looks again in each build, also if an older archive is put there.
    println!("cargo:rustc-link-lib=static=zimatuno (run bindings/library)");
    println!("cargo:rerun-if-changed=zimatuno (run bindings/library)");
}
