//! Links libexports.a and libscreen_exports.a from DELVOUZH_LIB, by default target/staticlib of the repository, where `tools/build exports
//! screen_exports` writes them.
use std::path::PathBuf;

fn main() {
    let folder = std::env::var_os("DELVOUZH_LIB").map_or_else(
        || PathBuf::from(env!("CARGO_MANIFEST_DIR")).join("../target/staticlib"),
        PathBuf::from,
    );
    println!("cargo:rerun-if-env-changed=DELVOUZH_LIB");
    println!("cargo:rustc-link-search=native={}", folder.display());
    for name in ["screen_exports", "exports"] {
        let archive = folder.join(format!("lib{name}.a"));
        println!("cargo:rerun-if-changed={}", archive.display());
        if !archive.is_file() {
            println!(
                "cargo:warning={} is not there: run `tools/build {name}`",
                archive.display()
            );
        }
        println!("cargo:rustc-link-lib=static={name}");
    }
}
