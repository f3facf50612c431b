//! Links the proved library. With CHELBUGAN_LIB_DIR it is the archive in that folder, and no toolchain is needed; else
//! host/build-library proves it and compiles it into cargo's output folder.

use std::path::{Path, PathBuf};
use std::process::Command;

/// A folder with a `libchelbugan.a` that is there already.
const LIB_DIR: &str = "CHELBUGAN_LIB_DIR";
const ARCHIVE: &str = "libchelbugan.a";

fn main() {
    println!("cargo:rerun-if-env-changed={LIB_DIR}");
    let folder = match std::env::var_os(LIB_DIR) {
        Some(folder) => archive_there(PathBuf::from(folder)),
        None => archive_built(),
    };
    println!("cargo:rustc-link-search=native={}", folder.display());
    println!("cargo:rustc-link-lib=static=chelbugan");
    // A package that depends on this one reads it in its build script, as DEP_CHELBUGAN_LIB_DIR.
    println!("cargo:lib_dir={}", folder.display());
}

fn archive_there(folder: PathBuf) -> PathBuf {
    let archive = folder.join(ARCHIVE);
    if !archive.is_file() {
        let name = folder.display();
        fail(&format!(
            "{LIB_DIR} is {name}, and there is no {ARCHIVE} in it (write the whole path)"
        ));
    }
    watch(&archive);
    folder.canonicalize().unwrap_or(folder)
}

/// The script does nothing where the archive is made from the files that are here.
fn archive_built() -> PathBuf {
    let here = PathBuf::from(variable("CARGO_MANIFEST_DIR"));
    let folder = PathBuf::from(variable("OUT_DIR"));
    let root = here.parent().unwrap_or(&here);
    let script = here.join("build-library");
    for source in [root.join("crates.txt"), script.clone()] {
        watch(&source);
    }
    watch_crates(&root.join("crates"));
    let ended = Command::new(&script).arg(&folder).arg(variable("CARGO_CFG_TARGET_ARCH")).status();
    match ended {
        Ok(status) if status.success() => folder,
        Ok(_) => fail("host/build-library failed: its words are above"),
        Err(error) => fail(&format!("host/build-library cannot be started: {error}")),
    }
}

fn variable(name: &str) -> String {
    std::env::var(name).unwrap_or_else(|_| fail(&format!("cargo has not set {name}")))
}

fn watch(path: &Path) {
    println!("cargo:rerun-if-changed={}", path.display());
}

/// What a crate is proved from. Beside it, in out/, lies what rt keeps.
fn watch_crates(crates: &Path) {
    let entries = std::fs::read_dir(crates).into_iter().flatten().flatten();
    for folder in entries.flat_map(|entry| ["src", "specs", "proofs"].map(|part| entry.path().join(part))) {
        if folder.is_dir() {
            watch(&folder);
        }
    }
}

fn fail(why: &str) -> ! {
    eprintln!("chelbugan: {why}");
    std::process::exit(1)
}
