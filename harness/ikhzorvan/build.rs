//! Finds the proved checker's archive and links it, where the feature `engine` asks for it.

use std::env;
use std::path::PathBuf;
use std::process::Command;

/// Names the folder of the archive. Without it pkg-config is asked.
const FOLDER: &str = "IKHZORVAN_ARCHIVE_DIR";

fn main() {
    for variable in [FOLDER, "PKG_CONFIG_PATH"] {
        println!("cargo::rerun-if-env-changed={variable}");
    }
    if env::var_os("CARGO_FEATURE_ENGINE").is_none() {
        return;
    }
    let Some(folder) = env::var_os(FOLDER).map(PathBuf::from).or_else(installed) else {
        println!(
            "cargo::error={FOLDER} is not set and pkg-config knows no ikhzorvan: `harness/install PREFIX` installs it"
        );
        return;
    };
    let archive = folder.join("libikhzorvan.a");
    println!("cargo::rerun-if-changed={}", archive.display());
    if !archive.exists() {
        println!("cargo::error=no {}: `harness/install PREFIX` puts it into PREFIX/lib", archive.display());
        return;
    }
    println!("cargo::rustc-link-search=native={}", folder.display());
    println!("cargo::rustc-link-lib=static=ikhzorvan");
}

/// The folder that pkg-config gives.
fn installed() -> Option<PathBuf> {
    let said = Command::new("pkg-config").args(["--variable=libdir", "ikhzorvan"]).output().ok()?;
    let folder = String::from_utf8(said.stdout).ok()?;
    said.status.success().then(|| PathBuf::from(folder.trim()))
}
