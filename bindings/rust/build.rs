//! Links the archive of the proved calls, which `tools/archive` builds.

use std::env;
use std::path::PathBuf;
use std::process::exit;

const VARIABLE: &str = "OARHATCHET_ARCHIVE_DIR";

fn main() {
    println!("cargo:rerun-if-env-changed={VARIABLE}");
    let folder = match env::var_os(VARIABLE) {
        Some(folder) => PathBuf::from(folder),
        None => {
            let manifest = env::var_os("CARGO_MANIFEST_DIR").expect("cargo sets this for a build");
            PathBuf::from(manifest).join("../../target/staticlib")
        }
    };
    let archive = folder.join("libexports.a");
    println!("cargo:rerun-if-changed={}", archive.display());
    if !archive.is_file() {
        eprintln!("There is no archive {}.", archive.display());
        eprintln!("Run tools/archive, which builds it, or name its folder in {VARIABLE}.");
        exit(1);
    }
    println!("cargo:rustc-link-search=native={}", folder.display());
    println!("cargo:rustc-link-lib=static=exports");
}
