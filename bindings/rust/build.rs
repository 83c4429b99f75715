//! Links libsphairune.a, from the folder that SPHAIRUNE_LIB names, or from where tools/library puts it.
use std::env;
use std::path::{Path, PathBuf};

fn main() {
    let here = env::var_os("CARGO_MANIFEST_DIR").expect("cargo names the package's folder");
    let folder = match env::var_os("SPHAIRUNE_LIB") {
        Some(folder) => PathBuf::from(folder),
        None => Path::new(&here).join("../../target/native"),
    };
    let library = folder.join("libsphairune.a");
    println!("cargo::rerun-if-env-changed=SPHAIRUNE_LIB");
    println!("cargo::rerun-if-changed={}", library.display());
    if !library.is_file() {
        println!("cargo::error=no {}: run tools/library first, or name its folder in SPHAIRUNE_LIB", library.display());
    }
    println!("cargo::rustc-link-search=native={}", folder.display());
    println!("cargo::rustc-link-lib=static=sphairune");
}
