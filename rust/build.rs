//! Finds the machine code of the library: the crate's assembly, or else the archive `libcordyceps.a`.

use std::path::{Path, PathBuf};
use std::process::{self, Command};
use std::{env, fs};

const ARCHIVE: &str = "libcordyceps.a";
const ASSEMBLY: &str = "cordyceps.s";

/// The folders in which the library is looked for, the first one first: that of a variable, that of the crate, that of
/// `pkg-config`, and the one where the tools of a checkout leave it.
fn folders() -> Vec<PathBuf> {
    println!("cargo:rerun-if-env-changed=CORDYCEPS_LIB_DIR");
    let crate_folder = Path::new(env!("CARGO_MANIFEST_DIR"));
    let given = env::var_os("CORDYCEPS_LIB_DIR").filter(|it| !it.is_empty()).map(PathBuf::from);
    if let Some(given) = given {
        return vec![given];
    }
    let mut found = vec![crate_folder.join("assembly")];
    let asked = Command::new("pkg-config").args(["--variable=libdir", "cordyceps"]).output();
    let installed = asked.map(|it| String::from_utf8_lossy(&it.stdout).trim().to_owned()).unwrap_or_default();
    if !installed.is_empty() {
        found.push(installed.into());
    }
    found.push(crate_folder.join("../crates/cordyceps_c/out/c"));
    found
}

/// The first of the files with this name, as an absolute path.
fn find(name: &str, folders: &[PathBuf]) -> Option<PathBuf> {
    folders.iter().find_map(|it| fs::canonicalize(it.join(name)).ok())
}

fn main() {
    println!("cargo:rustc-check-cfg=cfg(has_assembly)");
    let target = env::var("TARGET").unwrap_or_default();
    if !target.starts_with("x86_64-") || !target.contains("-linux-") {
        eprintln!("cordyceps-c: the library's machine code is for x86-64 Linux, and not for {target}");
        process::exit(1);
    }
    let folders = folders();
    let takes_archive = env::var_os("CARGO_FEATURE_ARCHIVE").is_some();
    let assembly = if takes_archive { None } else { find(ASSEMBLY, &folders) };
    if let Some(assembly) = assembly {
        println!("cargo:rerun-if-changed={}", assembly.display());
        println!("cargo:rustc-env=CORDYCEPS_ASSEMBLY={}", assembly.display());
        println!("cargo:rustc-cfg=has_assembly");
        return;
    }
    println!("cargo:rustc-link-lib=static=cordyceps");
    match find(ARCHIVE, &folders) {
        Some(archive) => {
            println!("cargo:rerun-if-changed={}", archive.display());
            println!("cargo:rustc-link-search=native={}", archive.parent().unwrap_or(&archive).display());
        }
        // (a check and the documents need no library)
        None => {
            println!(
                "cargo:warning=there is no {ARCHIVE} and no {ASSEMBLY} in {folders:?}, so no program can be linked."
            );
            println!("cargo:warning=Take the crate of a release, or install the archive of one, or build it by");
            println!("cargo:warning=tools/c_library PREFIX, and set CORDYCEPS_LIB_DIR to its folder.");
        }
    }
}
