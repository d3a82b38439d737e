//! Links the library's two archives. `TUSWERAM_LIB` names a folder that has `libhost.a` and `libhost_parts.a`; without it, `bindings/archives` proves
//! and builds them.

use std::env;
use std::path::{Path, PathBuf};
use std::process::Command;

const ARCHIVES: [&str; 2] = ["host", "host_parts"];

fn main() {
    println!("cargo:rerun-if-env-changed=TUSWERAM_LIB");
    let folder = match env::var_os("TUSWERAM_LIB") {
        Some(folder) => given(PathBuf::from(folder)),
        None => built(),
    };
    println!("cargo:rustc-link-search=native={}", folder.display());
    for name in ARCHIVES {
        println!("cargo:rustc-link-lib=static={name}");
    }
}

fn given(folder: PathBuf) -> PathBuf {
    for name in ARCHIVES {
        let archive = folder.join(format!("lib{name}.a"));
        assert!(archive.is_file(), "{} is not there; TUSWERAM_LIB names a folder by its whole path", archive.display());
        println!("cargo:rerun-if-changed={}", archive.display());
    }
    folder
}

// Built again where a source has changed, and not where an archive is newer than this run, which it always is.
fn built() -> PathBuf {
    let arch = env::var("CARGO_CFG_TARGET_ARCH").unwrap_or_default();
    assert!(
        arch == "x86_64",
        "bindings/archives makes archives for x86-64, and this build is for {arch}: give --target x86_64-unknown-linux-gnu"
    );
    let here = env::var_os("CARGO_MANIFEST_DIR").expect("cargo says where the crate is");
    let root = Path::new(&here).join("../..");
    println!("cargo:rerun-if-changed={}", root.join("crates.txt").display());
    for folder in std::fs::read_dir(root.join("crates")).expect("the library's crates are there").flatten() {
        for part in ["src", "specs", "proofs"].map(|part| folder.path().join(part)) {
            if part.is_dir() {
                println!("cargo:rerun-if-changed={}", part.display());
            }
        }
    }
    let archives = root.join("bindings/archives");
    match Command::new(&archives).status() {
        Ok(status) => assert!(
            status.success(),
            "{} failed ({status}): it wants the Rattle kit's command rt on PATH; or name a folder with both archives in TUSWERAM_LIB",
            archives.display()
        ),
        Err(e) => panic!("{} cannot be run: {e}", archives.display()),
    }
    root.join("target/staticlib")
}
