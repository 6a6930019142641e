//! The archive's own source, as the declarations and the header are held to it.
#![allow(dead_code)]

use std::collections::BTreeMap;
use std::path::{Path, PathBuf};

/// The parameters of a function, or the fields of a struct, in order, and what the function returns.
#[derive(Debug, PartialEq, Eq)]
pub struct Shape {
    pub parts: Vec<(String, String)>,
    pub result: String,
}

pub type Shapes = BTreeMap<String, Shape>;

/// Cargo runs a test in its package's folder. A path from the build could lead into another tree.
pub fn package() -> &'static Path {
    Path::new(".")
}

pub fn read(path: &Path) -> String {
    std::fs::read_to_string(path).unwrap_or_else(|why| panic!("{}: {why}", path.display()))
}

/// The text without its comments, with one space wherever there was any.
pub fn plain(text: &str) -> String {
    let kept = text
        .lines()
        .map(|line| line.split("//").next().unwrap_or(""));
    kept.flat_map(str::split_whitespace)
        .collect::<Vec<_>>()
        .join(" ")
}

/// All of the archive's source: the functions stand in `exports_c`, their structs in `boundary`, and
/// the record of a cell in `cells`.
pub fn archive() -> String {
    let folders =
        ["exports_c", "boundary", "cells"].map(|name| package().join("../../crates").join(name));
    let mut files: Vec<PathBuf> = folders
        .iter()
        .flat_map(|folder| {
            let entries = std::fs::read_dir(folder.join("src"));
            entries.expect("the archive's source is beside rust/")
        })
        .map(|entry| entry.unwrap().path())
        .collect();
    files.sort();
    plain(&files.iter().map(|file| read(file)).collect::<String>())
}

/// `a: T, b: U,` as pairs; no type here has a comma.
fn pairs(list: &str) -> Vec<(String, String)> {
    let parts = list
        .split(',')
        .map(str::trim)
        .filter(|part| !part.is_empty());
    parts
        .map(|part| {
            let part = part.strip_prefix("pub ").unwrap_or(part);
            let (name, kind) = part.split_once(':').expect("a name and its type");
            (name.trim().to_string(), kind.trim().to_string())
        })
        .collect()
}

/// What follows each `mark`: a name, a list between two brackets, and, of a function, its result.
fn shapes(text: &str, mark: &str, open: char, close: char) -> Shapes {
    let found = text.split(mark).skip(1).map(|rest| {
        let (name, rest) = rest.split_once(open).expect("a list");
        let (list, rest) = rest.split_once(close).expect("its end");
        let result = rest.trim_start().strip_prefix("-> ").unwrap_or("");
        let end = result.find([' ', ';']).unwrap_or(result.len());
        let shape = Shape {
            parts: pairs(list),
            result: result[..end].to_string(),
        };
        (name.trim().to_string(), shape)
    });
    found.collect()
}

pub fn functions(text: &str, mark: &str) -> Shapes {
    shapes(text, mark, '(', ')')
}

pub fn exported() -> Shapes {
    functions(&archive(), "#[unsafe(no_mangle)] pub extern \"C\" fn ")
}

/// The text without what its structs derive.
fn underived(text: &str) -> String {
    let mut parts = text.split("#[derive(");
    let first = parts.next().unwrap_or("").to_string();
    parts.fold(first, |kept, part| {
        kept + part.split_once(")] ").map_or(part, |(_, rest)| rest)
    })
}

/// The structs that are laid out as C does. What they derive may differ.
pub fn structs(text: &str) -> Shapes {
    shapes(&underived(text), "#[repr(C)] pub struct ", '{', '}')
}
