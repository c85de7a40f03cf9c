//! Brings the published source in, unchanged, and links the library under test.
//!
//! The folder of the published source is `ZIBRUNNOS_SOURCE`, by default `../../shared/docs/src` seen from this package.
//! Both files are copied to the build folder, each with a module appended that reaches its private functions; its own text stays as it is.
//! Nothing of either is kept in the repository.

use std::path::PathBuf;
use std::{env, fs, process};

/// What is appended to the copy of `ape.rs`: functions that call its private ones.
const REACH_APE: &str = r#"
#[allow(dead_code)]
pub(crate) mod reach {
    use super::*;

    pub(crate) fn serialize(tag: &ApeTag) -> Vec<u8> {
        serialize_ape_tag(tag)
    }

    pub(crate) fn split(data: &[u8]) -> (&[u8], &[u8]) {
        split_ape_tag(data)
    }

    /// What replacement puts before the tag and after it.
    pub(crate) fn parts(data: &[u8]) -> (&[u8], &[u8]) {
        let (audio, _, id3v1) = ape_tag_parts(data, &ApeTag::new());
        (audio, id3v1)
    }

    pub(crate) fn replace(data: &[u8], tag: &ApeTag) -> Vec<u8> {
        let (audio, tag_data, id3v1) = ape_tag_parts(data, tag);
        [audio, &tag_data, id3v1].concat()
    }
}
"#;

/// What is appended to the copy of `frame.rs`.
const REACH_FRAME: &str = r#"
#[allow(dead_code)]
pub(crate) mod reach {
    use super::*;

    /// Adjusts gains that fill a byte each, as an apply does, and gives its counts.
    pub(crate) fn tally(gains: &mut [u8], steps: i32, mode: GainMode) -> SaturationStats {
        let mut stats = SaturationStats::default();
        for byte_offset in 0..gains.len() {
            adjust_gain_at(gains, &GainLocation { byte_offset, bit_offset: 0 }, steps, mode, &mut stats);
        }
        stats
    }

    /// The same counts of gains in a list, which stays as it is.
    pub(crate) fn tally_list(gains: &[u8], steps: i32, mode: GainMode) -> SaturationStats {
        let mut stats = SaturationStats::default();
        for &gain in gains {
            let new = adjust_gain_value(gain, steps, mode);
            if mode == GainMode::Saturating {
                stats.tally(gain, steps);
            }
            stats.min_gain = stats.min_gain.min(new);
            stats.max_gain = stats.max_gain.max(new);
        }
        stats
    }
}
"#;

/// The library's archives, one for each module.
const ARCHIVES: [&str; 17] = [
    "c_frame",
    "c_utf8",
    "c_values",
    "c_amplitudes",
    "c_fixed_ranges",
    "c_tally",
    "c_items",
    "c_area",
    "c_ape",
    "c_tail_read",
    "c_tail_write",
    "c_edit",
    "c_level",
    "c_slip",
    "c_sound",
    "c_lengths",
    "c_list",
];

fn fail(text: &str) -> ! {
    eprintln!("oracle: {text}");
    process::exit(1);
}

fn folder(name: &str, default: PathBuf) -> PathBuf {
    println!("cargo:rerun-if-env-changed={name}");
    let path = env::var_os(name).map(PathBuf::from).unwrap_or(default);
    fs::canonicalize(&path).unwrap_or_else(|_| fail(&format!("{} is not there (set {name})", path.display())))
}

fn main() {
    let here = PathBuf::from(env::var_os("CARGO_MANIFEST_DIR").unwrap());
    let source = folder("ZIBRUNNOS_SOURCE", here.join("../../shared/docs/src")).join("src");
    let archive = folder("ZIBRUNNOS_ARCHIVE", here.join("../target/staticlib"));
    let out = PathBuf::from(env::var_os("OUT_DIR").unwrap());

    let mut published = String::new();
    for (name, reach) in [("ape", REACH_APE), ("frame", REACH_FRAME)] {
        let path = source.join(name).with_extension("rs");
        let text = fs::read_to_string(&path).unwrap_or_else(|e| fail(&format!("{}: {e}", path.display())));
        let copy = out.join(name).with_extension("rs");
        fs::write(&copy, text + reach).unwrap();
        published += &format!("#[allow(dead_code)]\n#[path = {:?}]\nmod {name};\n", copy.display().to_string());
        println!("cargo:rerun-if-changed={}", path.display());
    }
    fs::write(out.join("published.rs"), published).unwrap();

    println!("cargo:rustc-link-search=native={}", archive.display());
    // A second build of the library, whose calls begin with `beside_` (see `oracle/singly`).
    println!("cargo:rerun-if-env-changed=ZIBRUNNOS_BESIDE");
    if let Some(beside) = env::var_os("ZIBRUNNOS_BESIDE").map(PathBuf::from) {
        println!("cargo:rustc-cfg=beside");
        println!("cargo:rustc-link-search=native={}", beside.display());
        for name in ["c_utf8", "c_ape"] {
            println!("cargo:rerun-if-changed={}", beside.join(format!("libbeside_{name}.a")).display());
            println!("cargo:rustc-link-lib=static=beside_{name}");
        }
    }
    for name in ARCHIVES {
        println!("cargo:rerun-if-changed={}", archive.join(format!("lib{name}.a")).display());
        println!("cargo:rustc-link-lib=static={name}");
    }
}
