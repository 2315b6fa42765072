//! Links the proved archive `libjorehyi.a`, from the folder `JOREHYI_LIB` or from the repository's `target/staticlib`.

use std::env;
use std::path::{Path, PathBuf};

fn folder() -> PathBuf {
    let manifest = env::var_os("CARGO_MANIFEST_DIR").expect("cargo sets CARGO_MANIFEST_DIR");
    match env::var_os("JOREHYI_LIB") {
        Some(folder) => Path::new(&manifest).join(folder),
        None => Path::new(&manifest).join("../../target/staticlib"),
    }
}

fn main() {
    let folder = folder();
    let archive = folder.join("libjorehyi.a");
    if !archive.exists() {
        println!(
            "cargo:warning={} is missing: `tools/build jorehyi` writes it",
            archive.display()
        );
    }
    println!("cargo:rerun-if-env-changed=JOREHYI_LIB");
    println!("cargo:rerun-if-changed={}", archive.display());
    println!("cargo:rustc-link-search=native={}", folder.display());
    println!("cargo:rustc-link-lib=static=jorehyi");
}
