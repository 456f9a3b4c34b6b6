// Links the archive in the folder that CRACKLEDRAY_LIB names, else the one that library/archive proves and builds.
use std::path::{Path, PathBuf};
use std::{env, fs, process::Command};

/// The folder of the archive that library/archive makes; it needs `rt`.
fn made(library: &Path) -> String {
    let archive = library.join("archive");
    let said = Command::new(&archive).arg("crackledray").output();
    let said = said.unwrap_or_else(|e| panic!("{}: {e}", archive.display()));
    if !said.status.success() {
        let why = String::from_utf8_lossy(&said.stderr);
        panic!("no archive; CRACKLEDRAY_LIB can name a folder that has libcrackledray.a\n{why}");
    }
    let path = String::from_utf8(said.stdout).unwrap();
    Path::new(path.trim()).parent().unwrap().display().to_string()
}

/// What the archive is made of: crates.txt, and each crate's sources. Each run of library/archive writes into the crates' out/
/// anew, so that these folders cannot be watched.
fn sources(top: &Path) -> Vec<PathBuf> {
    let crates = fs::read_dir(top.join("crates")).unwrap();
    let folders = crates.map(|it| it.unwrap().path());
    let parts = folders.flat_map(|it| ["src", "specs", "proofs"].map(|part| it.join(part)));
    parts.filter(|it| it.is_dir()).chain([top.join("crates.txt")]).collect()
}

fn main() {
    let library = Path::new(&env::var("CARGO_MANIFEST_DIR").unwrap()).join("..");
    let given = env::var("CRACKLEDRAY_LIB").ok();
    let watched = match &given {
        Some(folder) => vec![Path::new(folder).join("libcrackledray.a")],
        None => sources(&library.join("..")),
    };
    let folder = given.unwrap_or_else(|| made(&library));
    println!("cargo:rustc-link-search=native={folder}");
    println!("cargo:rustc-link-lib=static=crackledray");
    println!("cargo:rerun-if-env-changed=CRACKLEDRAY_LIB");
    for path in watched {
        println!("cargo:rerun-if-changed={}", path.display());
    }
}
