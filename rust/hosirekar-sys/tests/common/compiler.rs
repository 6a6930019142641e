//! Programs in C and C++ over the header and the archive, where a compiler is at hand.
#![allow(dead_code)]

use std::io::Write;
use std::path::{Path, PathBuf};
use std::process::{Command, Output};
use std::{env, fs, process};

/// A language, by the names of its compilers, what they are told, and the end of its files' names.
pub struct Language {
    name: &'static str,
    compilers: [&'static str; 3],
    standard: &'static str,
    extension: &'static str,
}

pub const C: Language = Language {
    name: "C",
    compilers: ["cc", "gcc", "clang"],
    standard: "-std=c99",
    extension: "c",
};

pub const CPP: Language = Language {
    name: "C++",
    compilers: ["c++", "g++", "clang++"],
    standard: "-std=c++11",
    extension: "cc",
};

/// No warning passes.
const STRICT: [&str; 4] = ["-Wall", "-Wextra", "-Wpedantic", "-Werror"];

/// A folder of its own for what a compiler makes, which goes when it is no longer needed.
struct Folder(PathBuf);

impl Folder {
    fn new(what: &str) -> Folder {
        let name = format!("hosirekar-{}-{what}", process::id());
        let path = env::temp_dir().join(name.replace(['/', ' '], "-"));
        fs::create_dir_all(&path).unwrap_or_else(|why| panic!("{}: {why}", path.display()));
        Folder(path)
    }
}

impl Drop for Folder {
    fn drop(&mut self) {
        // What stays behind does no harm.
        let _ = fs::remove_dir_all(&self.0);
    }
}

/// The archive that this package links, as its build script finds it.
fn archive() -> PathBuf {
    let own = || PathBuf::from("../../target/staticlib");
    let folder = env::var_os("HOSIREKAR_ARCHIVE").map_or_else(own, PathBuf::from);
    folder.join("libexports.a")
}

impl Language {
    fn compiler(&self) -> Option<&'static str> {
        let answers = |compiler: &&&str| {
            let output = Command::new(compiler).arg("--version").output();
            output.is_ok_and(|output| output.status.success())
        };
        self.compilers.iter().find(answers).copied()
    }

    /// What the program prints once it is compiled, linked and run; nothing where there is no compiler.
    pub fn run(&self, what: &str, program: &str) -> Option<String> {
        let Some(compiler) = self.compiler() else {
            // The macros that print are silent in a test that passes.
            let line = format!("no {} compiler is at hand: {what} was skipped\n", self.name);
            let written = std::io::stdout().write_all(line.as_bytes());
            written.expect("a line is printed");
            return None;
        };
        let folder = Folder::new(&format!("{what}-{}", self.extension));
        let source = folder.0.join("program").with_extension(self.extension);
        fs::write(&source, program).expect("a program is written");
        let made = folder.0.join("program");
        let command = self.compile(compiler, &source, &made);
        good(command, &format!("{what} is no {}", self.name));
        let output = good(Command::new(made).output(), what);
        Some(String::from_utf8(output.stdout).expect("text"))
    }

    fn compile(&self, compiler: &str, source: &Path, made: &Path) -> std::io::Result<Output> {
        let mut command = Command::new(compiler);
        command.arg(self.standard).args(STRICT).arg("-Iinclude");
        command.args([source, &archive()]).arg("-o").arg(made);
        command.output()
    }
}

/// What a command gave that should have been good.
fn good(output: std::io::Result<Output>, what: &str) -> Output {
    let output = output.unwrap_or_else(|why| panic!("{what}: {why}"));
    let said = [&output.stdout[..], &output.stderr[..]].concat();
    let said = String::from_utf8_lossy(&said);
    assert!(output.status.success(), "{what}:\n{said}");
    output
}
