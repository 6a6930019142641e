//! Finds hexx's source and writes the one line of Rust that takes its mesh
//! files in, so that no copy of them is ever here.

use std::path::{Path, PathBuf};
use std::{env, fs, process};

/// The variable that names another folder to take hexx's source from.
const SOURCE: &str = "HEXX_SOURCE";

/// Where glam.sh puts glam, seen from this package.
const GLAM: &str = "target/glam/Cargo.toml";

fn main() {
    println!("cargo::rerun-if-changed=build.rs");
    println!("cargo::rerun-if-changed={GLAM}");
    println!("cargo::rerun-if-env-changed={SOURCE}");
    if let Err(message) = source().and_then(|source| take_in(&source)) {
        println!("cargo::error={message}");
    }
    println!("cargo::rustc-env=GLAM_VERSION={}", glam_version());
    println!("cargo::rustc-env=RUSTC_VERSION={}", rustc_version());
}

/// The folder that was asked for, else `shared/docs/src` beside the repository.
fn source() -> Result<PathBuf, String> {
    if let Some(given) = env::var_os(SOURCE) {
        let given = PathBuf::from(given);
        // A build script runs in its package's folder, not in the caller's.
        if given.is_relative() {
            return Err(format!("{SOURCE} must be an absolute path"));
        }
        return Ok(given);
    }
    let package = env::var_os("CARGO_MANIFEST_DIR").ok_or("cargo names no package folder")?;
    match Path::new(&package).ancestors().nth(3) {
        Some(beside) => Ok(beside.join("shared").join("docs").join("src")),
        None => Err("the package is not inside the repository".to_string()),
    }
}

/// Writes a file that names hexx's mesh module where it is.
fn take_in(source: &Path) -> Result<(), String> {
    let module = source.join("src").join("mesh").join("mod.rs");
    println!("cargo::rerun-if-changed={}", module.display());
    if !module.is_file() {
        return Err(format!(
            "{} is not there: set {SOURCE} to the folder of hexx 0.25.0",
            module.display()
        ));
    }
    let text = format!(
        "/// hexx's own mesh files, unchanged.\n\
         #[allow(unfulfilled_lint_expectations, clippy::all)]\n\
         #[path = {:?}]\n\
         pub mod mesh;\n",
        module.display().to_string()
    );
    let folder = env::var_os("OUT_DIR").ok_or("cargo names no output folder")?;
    fs::write(Path::new(&folder).join("mesh.rs"), text).map_err(|error| error.to_string())
}

/// The version that glam's own manifest states, for what is said of a record.
fn glam_version() -> String {
    let manifest = fs::read_to_string(GLAM).unwrap_or_default();
    let line = manifest.lines().find(|line| line.starts_with("version = "));
    let version = line.and_then(|line| line.split('"').nth(1));
    version.unwrap_or("unknown").to_string()
}

/// What the compiler says it is, for what is said of a record.
fn rustc_version() -> String {
    let rustc = env::var_os("RUSTC").unwrap_or_else(|| "rustc".into());
    match process::Command::new(rustc).arg("--version").output() {
        Ok(answer) => String::from_utf8_lossy(&answer.stdout).trim().to_string(),
        Err(_) => "rustc unknown".to_string(),
    }
}
