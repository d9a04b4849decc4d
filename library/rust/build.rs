//! Links libsiljuvatt.a from the folder that SILJUVATT_LIB names, or else from crates/siljuvatt/out of the repository.
//!
//! The archive is needed to link and for nothing else: without it `cargo check`, `cargo clippy` and `cargo doc` go on,
//! and `cargo build` fails with what to run.

use std::env;
use std::path::PathBuf;

const VARIABLE: &str = "SILJUVATT_LIB";
const ARCHIVE: &str = "libsiljuvatt.a";

fn main() {
    let folder = env::var_os(VARIABLE).map_or_else(default_folder, PathBuf::from);
    let archive = folder.join(ARCHIVE);
    let mut library = "siljuvatt".to_owned();
    if !archive.is_file() {
        let what = format!("{} is not there", archive.display());
        let help = format!(
            "run compare/build siljuvatt, or name its folder by {VARIABLE}, as an absolute path"
        );
        println!("cargo:warning={what}, so nothing can be linked: {help}");
        // Cargo does not show each warning. What rustc does not find it names in its error, so the name says it too.
        library.push_str(&format!(" ({help})"));
    }
    // A file that is not there counts as changed, so its coming to be is seen.
    println!("cargo:rerun-if-changed={}", archive.display());
    println!("cargo:rerun-if-env-changed={VARIABLE}");
    println!("cargo:rustc-link-search=native={}", folder.display());
    println!("cargo:rustc-link-lib=static={library}");
}

fn default_folder() -> PathBuf {
    let package = env::var_os("CARGO_MANIFEST_DIR").expect("cargo names the package's folder");
    PathBuf::from(package).join("../../crates/siljuvatt/out")
}
