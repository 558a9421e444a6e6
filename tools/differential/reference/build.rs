//! Writes the module tree of the reference over a copy of the source folder U_SCHEDULE (by default
//! ../shared/docs/src beside the repository), to which the patches of ../patches are applied in the order of
//! their names: where a wanted rule parts from the source. Without a patch the copy is the source, byte for
//! byte. A patch that does not apply ends the build.
//!
//! feasibility.rs is compiled twice: as it is, and with one child module added at its end, for only a child
//! can call the nine private checks and so say which of them made a finding.

use std::path::{Path, PathBuf};
use std::process::Command;
use std::{env, fs};

const MODELS: [&str; 6] = [
    "activity",
    "calendar",
    "constraint",
    "resource",
    "schedule",
    "task",
];

fn main() {
    let here = PathBuf::from(env::var("CARGO_MANIFEST_DIR").unwrap());
    let out = fs::canonicalize(env::var("OUT_DIR").unwrap()).unwrap();
    let folder =
        env::var("U_SCHEDULE").map_or(here.join("../../../../shared/docs/src"), PathBuf::from);
    let original = fs::canonicalize(folder.join("src"))
        .expect("U_SCHEDULE names the folder of the reference's source");
    let patches = here.join("../patches");
    let source = patched(&original, &patches, &out);

    let mut tree = String::from("pub mod models {\n");
    for name in MODELS {
        tree += &module(
            "pub ",
            name,
            &source.join("models").join(format!("{name}.rs")),
        );
        tree += &format!("    pub use {name}::*;\n");
    }
    tree += "}\npub mod scheduler {\n";
    let feasibility = source.join("scheduler/feasibility.rs");
    tree += &module("pub ", "feasibility", &feasibility);
    let copy = out.join("feasibility_by_check.rs");
    let text = fs::read_to_string(&feasibility).unwrap();
    fs::write(
        &copy,
        text + "\n" + &module("pub ", "by_check", &here.join("src/by_check.rs")),
    )
    .unwrap();
    tree += &module("pub ", "feasibility_by_check", &copy);
    tree += "}\n";
    fs::write(out.join("source.rs"), tree).unwrap();
    println!("cargo:rerun-if-env-changed=U_SCHEDULE");
    println!("cargo:rerun-if-changed={}", original.display());
    println!("cargo:rerun-if-changed={}", patches.display());
    println!("cargo:rerun-if-changed=src/by_check.rs");
}

fn module(visibility: &str, name: &str, path: &Path) -> String {
    format!(
        "    #[path = {:?}]\n    {visibility}mod {name};\n",
        path.display().to_string()
    )
}

/// The folder `src` of a copy, with the patches applied; `git apply` takes a patch whole or not at all.
fn patched(original: &Path, patches: &Path, out: &Path) -> PathBuf {
    let copy = out.join("u-schedule");
    if copy.exists() {
        fs::remove_dir_all(&copy).unwrap();
    }
    copy_folder(original, &copy.join("src"));
    let mut all: Vec<PathBuf> = fs::read_dir(patches)
        .expect("tools/differential/patches")
        .map(|entry| entry.unwrap().path())
        .filter(|path| path.extension().is_some_and(|word| word == "patch"))
        .collect();
    all.sort();
    for patch in all {
        let status = Command::new("git")
            .args(["apply", "-p1", "--whitespace=nowarn"])
            .arg(fs::canonicalize(&patch).unwrap())
            .current_dir(&copy)
            .env("GIT_CEILING_DIRECTORIES", out) // the copy belongs to no repository
            .env_remove("GIT_DIR")
            .status()
            .expect("git, which applies the patches");
        assert!(
            status.success(),
            "{} does not apply to the source",
            patch.display()
        );
    }
    copy.join("src")
}

fn copy_folder(from: &Path, to: &Path) {
    fs::create_dir_all(to).unwrap();
    for entry in fs::read_dir(from).unwrap() {
        let path = entry.unwrap().path();
        let target = to.join(path.file_name().unwrap());
        if path.is_dir() {
            copy_folder(&path, &target);
        } else {
            fs::write(target, fs::read(&path).unwrap()).unwrap();
        }
    }
}
