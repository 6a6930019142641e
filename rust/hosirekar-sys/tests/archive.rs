//! Holds the archive that was linked to the one that is there: cargo goes by the time of a file, and an
//! older archive put in its place would not be seen.

use std::path::PathBuf;

/// The build's own copy, which is what the linker took.
const LINKED: &[u8] = include_bytes!(concat!(env!("OUT_DIR"), "/libexports.a"));

#[test]
fn the_archive_that_is_there_was_linked() {
    // Cargo runs a test in its package's folder.
    let own = || PathBuf::from("../../target/staticlib");
    let folder = std::env::var_os("HOSIREKAR_ARCHIVE").map_or_else(own, PathBuf::from);
    let archive = folder.join("libexports.a");
    let there = std::fs::read(&archive);
    let there = there.unwrap_or_else(|why| panic!("{}: {why}", archive.display()));
    assert!(
        there == LINKED,
        "{} is not what was linked: touch it and build again",
        archive.display()
    );
}
