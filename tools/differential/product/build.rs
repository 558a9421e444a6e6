//! Links the product's static library STATICLIB, and tells the source which of its functions it has (cfg has_NAME).

use std::path::PathBuf;
use std::process::Command;
use std::{env, fs};

const FUNCTIONS: [&str; 5] = [
    "sheet_validate",
    "sheet_read_text",
    "sheet_work_end",
    "sheet_check_schedule",
    "sheet_margins",
];

fn main() {
    for function in FUNCTIONS {
        println!("cargo:rustc-check-cfg=cfg(has_{function})");
    }
    println!("cargo:rerun-if-env-changed=STATICLIB");
    let library = PathBuf::from(env::var("STATICLIB").expect("STATICLIB names the static library"));
    let library = fs::canonicalize(library).expect("the static library is there");
    println!("cargo:rerun-if-changed={}", library.display());
    let listed = Command::new("nm")
        .args(["-g", "--defined-only"])
        .arg(&library)
        .output();
    let listed = String::from_utf8(listed.expect("nm runs").stdout).expect("names of symbols");
    for function in FUNCTIONS {
        if listed
            .lines()
            .any(|l| l.split_whitespace().last() == Some(function))
        {
            println!("cargo:rustc-cfg=has_{function}");
        }
    }
    let name = library
        .file_stem()
        .unwrap()
        .to_str()
        .unwrap()
        .strip_prefix("lib")
        .expect("lib*.a");
    println!(
        "cargo:rustc-link-search=native={}",
        library.parent().unwrap().display()
    );
    println!("cargo:rustc-link-lib=static={name}");
}
