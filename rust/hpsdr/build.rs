//! Links the proved library, `libhpsdr.a`: from the folder that `HPSDR_ARCHIVE` names; or as the repository has made it for
//! this machine; or where pkg-config finds it installed.

use std::env;
use std::path::{Path, PathBuf};
use std::process::{exit, Command};

const VARIABLE: &str = "HPSDR_ARCHIVE";
const ARCHIVE: &str = "libhpsdr.a";

fn main() {
    println!("cargo:rerun-if-env-changed={VARIABLE}");
    println!("cargo:rerun-if-env-changed=PKG_CONFIG_PATH");
    let Some(folder) = folder() else {
        eprintln!(
            "error: there is no {ARCHIVE}: ./install PREFIX makes it and installs it; or name its folder, by an \
             absolute path, in the environment variable {VARIABLE}"
        );
        exit(1);
    };
    println!("cargo:rerun-if-changed={}", folder.join(ARCHIVE).display());
    println!("cargo:rustc-link-search=native={}", folder.display());
    println!("cargo:rustc-link-lib=static=hpsdr");
}

fn folder() -> Option<PathBuf> {
    let candidates = match env::var_os(VARIABLE) {
        Some(named) => vec![Some(PathBuf::from(named))],
        None => vec![Some(made_here()), installed()],
    };
    candidates
        .into_iter()
        .flatten()
        .find(|folder| folder.join(ARCHIVE).is_file())
}

fn made_here() -> PathBuf {
    Path::new(env!("CARGO_MANIFEST_DIR")).join("../../target/archive")
}

fn installed() -> Option<PathBuf> {
    let asked = Command::new("pkg-config")
        .args(["--variable=libdir", "hpsdr"])
        .output()
        .ok()?;
    let folder = String::from_utf8(asked.stdout).ok()?;
    (!folder.trim().is_empty()).then(|| PathBuf::from(folder.trim()))
}
