//! Finds the archive: in the folder that COMPACTD_DIR names, or in the one that `./prove --c` fills.

use std::env;
use std::path::PathBuf;

const VARIABLE: &str = "COMPACTD_DIR";
const ARCHIVE: &str = "libcompactd.a";

fn main() {
    let here = PathBuf::from(env::var("CARGO_MANIFEST_DIR").expect("cargo names the folder of the crate"));
    let folder = match env::var_os(VARIABLE) {
        Some(folder) => PathBuf::from(folder),
        None => here.join("../../crates/compactd_c/out/c"),
    };
    println!("cargo:rerun-if-env-changed={VARIABLE}");
    println!("cargo:rerun-if-changed={}", folder.join(ARCHIVE).display());
    if !folder.join(ARCHIVE).is_file() {
        eprintln!("there is no {ARCHIVE} in {}: run ./prove --c, or set {VARIABLE} to the folder that has it", folder.display());
        std::process::exit(1);
    }
    println!("cargo:rustc-link-search=native={}", folder.display());
    println!("cargo:rustc-link-lib=static=compactd");
}
