//! Writes drawn meshes as binary STL files and reads drawn files, of any bit patterns and with faults, and
//! says how often the archive differs from the plain way of the tests. What is written is read back, and
//! what is read is written again.
//!
//! `cargo run --release --example drawn_stl -- 1000000 1`

#[path = "../tests/common/mod.rs"]
mod common;
use common::stl_draws::Tally;
use std::process::ExitCode;

/// How many meshes, and the seed.
fn asked() -> Option<(u64, u64)> {
    let mut arguments = std::env::args().skip(1);
    let asked = (
        arguments.next()?.parse().ok()?,
        arguments.next()?.parse().ok()?,
    );
    arguments.next().is_none().then_some(asked)
}

fn main() -> ExitCode {
    let Some((count, seed)) = asked() else {
        eprintln!("drawn_stl count seed");
        return ExitCode::from(2);
    };
    let tally = Tally::run(count, seed);
    println!("{count} meshes and files, seed {seed}: {tally}");
    if let Some(first) = &tally.first {
        eprintln!("first: {first}");
    }
    ExitCode::from(u8::from(tally.differ > 0))
}
