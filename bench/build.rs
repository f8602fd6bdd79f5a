//! With the feature `linked`, points the linker at the archive of the proved library: in the folder that
//! SAGECRUET_ARCHIVE names, else in target/staticlib of the repository.

use std::env;
use std::path::PathBuf;

fn main() {
    println!("cargo:rerun-if-env-changed=SAGECRUET_ARCHIVE");
    if env::var_os("CARGO_FEATURE_LINKED").is_none() {
        return;
    }
    let folder = match env::var_os("SAGECRUET_ARCHIVE") {
        Some(folder) => PathBuf::from(folder),
        None => PathBuf::from(env::var_os("CARGO_MANIFEST_DIR").unwrap()).join("../target/staticlib"),
    };
    let archive = folder.join("libsagecruet.a");
    if !archive.is_file() {
        panic!("{} is not there: run `make` in the repository's folder", archive.display());
    }
    println!("cargo:rerun-if-changed={}", archive.display());
    println!("cargo:rustc-link-search=native={}", folder.display());
    println!("cargo:rustc-link-lib=static=sagecruet");
}
