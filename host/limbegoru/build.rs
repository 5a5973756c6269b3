//! Links the archive of the proved component, liblimbegoru.a.

use std::env;
use std::path::{Path, PathBuf};
use std::process::exit;

const FOLDER: &str = "LIMBEGORU_ARCHIVE_DIR";

fn main() {
    println!("cargo:rerun-if-env-changed={FOLDER}");
    let folder = folder();
    let archive = folder.join("liblimbegoru.a");
    println!("cargo:rerun-if-changed={}", archive.display());
    if !archive.is_file() {
        eprintln!("limbegoru: {} is not there.", archive.display());
        eprintln!("Run host/c/build, which makes it, or name its folder in {FOLDER}.");
        exit(1);
    }
    println!("cargo:rustc-link-search=native={}", folder.display());
    println!("cargo:rustc-link-lib=static=limbegoru");
}

/// The folder of the archive: the named one, or target/host under the repository's top.
fn folder() -> PathBuf {
    if let Some(named) = env::var_os(FOLDER) {
        return PathBuf::from(named);
    }
    let here = env::var_os("CARGO_MANIFEST_DIR").expect("cargo names the package's folder");
    let above = Path::new(&here).join("../../target/host");
    above.canonicalize().unwrap_or(above)
}
