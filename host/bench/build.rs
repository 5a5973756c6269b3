//! Builds baseline.c with gcc and best.c with clang, or gcc where there is none, and links them.

use std::env;
use std::path::{Path, PathBuf};
use std::process::Command;

fn run(command: &mut Command) {
    let status = command.status().unwrap_or_else(|error| panic!("{command:?}: {error}"));
    assert!(status.success(), "{command:?}: {status}");
}

fn has(compiler: &str) -> bool {
    Command::new(compiler).arg("--version").output().is_ok_and(|ran| ran.status.success())
}

fn main() {
    let here = PathBuf::from(env::var_os("CARGO_MANIFEST_DIR").expect("set by cargo"));
    let out = PathBuf::from(env::var_os("OUT_DIR").expect("set by cargo"));
    let top = here.parent().and_then(Path::parent).expect("host/bench has two parents");
    let header = top.join("include");
    let best = if has("clang") { "clang" } else { "gcc" };
    let archive = out.join("libbaseline.a");
    for (compiler, name) in [("gcc", "baseline"), (best, "best")] {
        let object = out.join(name).with_extension("o");
        run(Command::new(compiler)
            .args(["-std=c11", "-O3", "-march=x86-64", "-Wall", "-Wextra", "-Werror", "-I"])
            .arg(&header)
            .arg("-c")
            .arg(here.join(name).with_extension("c"))
            .arg("-o")
            .arg(&object));
        run(Command::new("ar").arg("crs").arg(&archive).arg(&object));
    }

    println!("cargo:rustc-link-search=native={}", out.display());
    println!("cargo:rustc-link-lib=static=baseline");
    println!("cargo:rustc-env=BEST_COMPILER={best}");
    for file in ["build.rs", "baseline.c", "baseline.h", "best.c"] {
        println!("cargo:rerun-if-changed={file}");
    }
    println!("cargo:rerun-if-changed={}", header.join("limbegoru.h").display());
}
