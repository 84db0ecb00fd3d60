//! Finds the library: the folder that FILTERSET_LIB names, or the folder of this crate, or what pkg-config says.

use std::env;
use std::path::{Path, PathBuf};
use std::process::Command;

/// Returns whether the folder holds the library in one of its two forms.
fn has_library(folder: &Path) -> bool {
    ["libfilterset.a", "libfilterset.so"].iter().any(|name| folder.join(name).exists())
}

/// Asks pkg-config for the options of the linker.
fn ask_pkg_config() -> Option<Vec<String>> {
    let output = Command::new("pkg-config").args(["--libs", "filterset"]).output().ok()?;
    let text = String::from_utf8(output.stdout).ok()?;
    output.status.success().then(|| text.split_whitespace().map(String::from).collect())
}

/// Links the library in this folder.
fn link_in(folder: &Path) {
    println!("cargo:rustc-link-search=native={}", folder.display());
    if folder.join("libfilterset.a").exists() {
        println!("cargo:rustc-link-lib=static=filterset");
    } else {
        println!("cargo:rustc-link-lib=dylib=filterset");
    }
}

fn main() {
    println!("cargo:rerun-if-env-changed=FILTERSET_LIB");
    println!("cargo:rerun-if-changed=build.rs");
    if let Some(folder) = env::var_os("FILTERSET_LIB").map(PathBuf::from) {
        if !has_library(&folder) {
            panic!("FILTERSET_LIB: no libfilterset.a or libfilterset.so in {}", folder.display());
        }
        link_in(&folder);
        return;
    }
    let beside = PathBuf::from(env::var_os("CARGO_MANIFEST_DIR").expect("cargo sets it"));
    if has_library(&beside) {
        link_in(&beside);
        return;
    }
    match ask_pkg_config() {
        Some(options) => {
            for option in options {
                match option.strip_prefix("-L") {
                    Some(folder) => println!("cargo:rustc-link-search=native={folder}"),
                    None => println!("cargo:rustc-link-arg={option}"),
                }
            }
        }
        None => panic!("libfilterset was not found: set FILTERSET_LIB to its folder"),
    }
}
