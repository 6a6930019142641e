//! Links the proved archive, or says in one line how to make it.
//!
//! What is linked is a copy in the folder that cargo gives to this package, and the archive is named as
//! seen from here. A path into the tree would stay in what cargo keeps of a build, and a copy of the tree
//! would go on linking the first tree's archive.

use std::path::{Path, PathBuf};
use std::{env, fs};

/// The variable that names another folder to take the archive from.
const FOLDER: &str = "HOSIREKAR_ARCHIVE";

/// The folder that `tools/archive` fills, seen from this package, where cargo runs a build script.
const OWN: &str = "../../target/staticlib";

/// The archive's name, as the linker looks for it.
const ARCHIVE: &str = "libexports.a";

fn main() {
    println!("cargo::rerun-if-changed=build.rs");
    println!("cargo::rerun-if-env-changed={FOLDER}");
    if let Err(message) = folder().and_then(|folder| link(&folder)) {
        println!("cargo::error={message}");
    }
}

/// The folder that was asked for, else the repository's own.
fn folder() -> Result<PathBuf, String> {
    match env::var_os(FOLDER).map(PathBuf::from) {
        // The caller's folder is not the one that this runs in.
        Some(given) if given.is_relative() => Err(format!("{FOLDER} must be an absolute path")),
        Some(given) => Ok(given),
        None => Ok(PathBuf::from(OWN)),
    }
}

/// Copies the archive of `folder`, has the copy linked, and has cargo look again when it changes or goes.
fn link(folder: &Path) -> Result<(), String> {
    let archive = folder.join(ARCHIVE);
    println!("cargo::rerun-if-changed={}", archive.display());
    let out = PathBuf::from(env::var_os("OUT_DIR").ok_or("cargo names no folder to write to")?);
    let shown = archive.strip_prefix("../..").unwrap_or(&archive).display();
    if !archive.is_file() {
        return Err(format!(
            "{shown} is not there: make it with `tools/archive`"
        ));
    }
    fs::copy(&archive, out.join(ARCHIVE)).map_err(|why| format!("{shown} is not copied: {why}"))?;
    println!("cargo::rustc-link-search=native={}", out.display());
    println!("cargo::rustc-link-lib=static=exports");
    Ok(())
}
