//! Links the static library that `rt lib` writes in `crates/panel`.

use std::path::Path;
use std::process::exit;

fn main() {
    let here = std::env::var("CARGO_MANIFEST_DIR").expect("cargo names the package's folder");
    let folder = Path::new(&here).join("../crates/panel/out");
    let archive = folder.join("libpanel.a");
    println!("cargo:rerun-if-changed=build.rs");
    println!("cargo:rerun-if-changed={}", archive.display());
    if std::env::var("CARGO_CFG_TARGET_ARCH").as_deref() != Ok("x86_64") {
        eprintln!("The static library is for x86-64 Linux alone, and this build is for another machine.");
        exit(1);
    }
    if !archive.is_file() {
        eprintln!("There is no {}.", archive.display());
        eprintln!("Make it first, at the repository's root: `(cd crates/panel && rt lib)`, or ./.ci/run, which makes it too.");
        exit(1);
    }
    println!("cargo:rustc-link-search=native={}", folder.display());
    println!("cargo:rustc-link-lib=static=panel");
}
