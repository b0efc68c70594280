//! Has the kit prove the routines and make an archive of them, and links it. With
//! RAUNTIKO_ARCHIVE a ready archive is linked instead, and the kit is not asked.

use std::env;
use std::path::{Path, PathBuf};
use std::process::{Command, Stdio};

/// The variable that names a ready archive.
const READY: &str = "RAUNTIKO_ARCHIVE";

/// Ends the build with what is wrong and what to do.
fn give_up(what: &str) -> ! {
    eprintln!("rauntiko: {what}");
    std::process::exit(1)
}

/// Has the script make the archive for the machine that is built for; its path.
fn made(root: &Path) -> PathBuf {
    let script = root.join("rust/archive");
    let target = env::var_os("TARGET").unwrap();
    let mut archive = Command::new(&script);
    let ended = archive.arg(target).stderr(Stdio::inherit()).output();
    let ended = ended.unwrap_or_else(|e| give_up(&format!("{}: {e}", script.display())));
    if !ended.status.success() {
        give_up(&format!(
            "no archive of the proved routines: above stands what `rust/archive` says; {READY} \
             takes the path of a ready one"
        ));
    }
    PathBuf::from(String::from_utf8_lossy(&ended.stdout).trim())
}

/// What the archive is made from: what the kit reads of each crate, without what it writes beside.
fn sources(root: &Path) -> Vec<PathBuf> {
    let mut found = vec![root.join("crates.txt"), root.join("rust/archive")];
    let crates = std::fs::read_dir(root.join("crates")).unwrap();
    for entry in crates.flatten() {
        let parts = ["src", "specs", "proofs"].map(|part| entry.path().join(part));
        found.extend(parts.into_iter().filter(|part| part.is_dir()));
    }
    found
}

/// The archive that is named or made, put under a name of its own where the linker looks.
fn main() {
    let root = PathBuf::from(env::var_os("CARGO_MANIFEST_DIR").unwrap()).join("..");
    let out = PathBuf::from(env::var_os("OUT_DIR").unwrap());
    println!("cargo:rerun-if-env-changed={READY}");
    for path in sources(&root) {
        println!("cargo:rerun-if-changed={}", path.display());
    }
    let archive = match env::var_os(READY) {
        None => made(&root),
        Some(ready) => {
            let ready = PathBuf::from(ready);
            println!("cargo:rerun-if-changed={}", ready.display());
            ready
        }
    };
    if let Err(e) = std::fs::copy(&archive, out.join("librauntiko_proved.a")) {
        give_up(&format!("{}: {e}", archive.display()));
    }
    println!("cargo:rustc-link-search=native={}", out.display());
    println!("cargo:rustc-link-lib=static=rauntiko_proved");
}
