//! Links the archives that `./archives` writes: those of this repository, or those in the folder that `ZIBRUNNOS_ARCHIVES` names.

use std::path::PathBuf;

const MODULES: [&str; 17] = [
    "frame",
    "utf8",
    "values",
    "amplitudes",
    "fixed_ranges",
    "tally",
    "items",
    "area",
    "ape",
    "tail_read",
    "tail_write",
    "edit",
    "level",
    "slip",
    "sound",
    "lengths",
    "list",
];

fn main() {
    println!("cargo:rerun-if-env-changed=ZIBRUNNOS_ARCHIVES");
    let folder = match std::env::var_os("ZIBRUNNOS_ARCHIVES") {
        Some(folder) => PathBuf::from(folder),
        None => PathBuf::from(std::env::var_os("CARGO_MANIFEST_DIR").unwrap()).join("../../target/staticlib"),
    };
    println!("cargo:rustc-link-search=native={}", folder.display());
    for module in MODULES {
        let archive = folder.join(format!("libc_{module}.a"));
        if !archive.is_file() {
            panic!(
                "{} is not there: run ./archives in the repository, or name its folder in ZIBRUNNOS_ARCHIVES",
                archive.display()
            );
        }
        println!("cargo:rerun-if-changed={}", archive.display());
        println!("cargo:rustc-link-lib=static=c_{module}");
    }
}
