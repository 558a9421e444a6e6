//! Links libhutchdecade.a from the folder HUTCHDECADE_LIB_DIR, by default where `tools/build hutchdecade` leaves it.
use std::path::{Path, PathBuf};
use std::{env, fs};

const VARIABLE: &str = "HUTCHDECADE_LIB_DIR";

fn main() {
    println!("cargo:rerun-if-env-changed={VARIABLE}");
    let here = env::var("CARGO_MANIFEST_DIR").expect("cargo names the folder of the manifest");
    let folder = env::var(VARIABLE).map_or_else(|_| Path::new(&here).join("../../crates/hutchdecade/out"), PathBuf::from);
    let library = folder.join("libhutchdecade.a");
    let library = fs::canonicalize(&library)
        .unwrap_or_else(|why| panic!("{}: {why} (tools/build hutchdecade makes it; {VARIABLE} names another folder)", library.display()));
    println!("cargo:rerun-if-changed={}", library.display());
    println!("cargo:rustc-link-search=native={}", library.parent().expect("a file has a folder").display());
    println!("cargo:rustc-link-lib=static=hutchdecade");
}
