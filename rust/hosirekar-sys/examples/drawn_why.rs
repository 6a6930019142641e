//! Asks drawn height maps, of equal heights, fringes, holes and faults, of every side and every face, and says
//! how often the archive differs from the plain way of the tests, or from its own windows and builds.
//!
//! `cargo run --release --example drawn_why -- 100000 1`

#[path = "../tests/common/mod.rs"]
mod common;
use common::why_draws::Tally;
use std::process::ExitCode;

/// How many maps, and the seed.
fn asked() -> Option<(u64, u64)> {
    let mut arguments = std::env::args().skip(1);
    let asked = (
        arguments.next()?.parse().ok()?,
        arguments.next()?.parse().ok()?,
    );
    arguments.next().is_none().then_some(asked)
}

fn main() -> ExitCode {
    let Some((count, seed)) = asked() else {
        eprintln!("drawn_why count seed");
        return ExitCode::from(2);
    };
    let tally = Tally::run(count, seed);
    println!("seed {seed}: {tally}");
    if let Some(first) = &tally.first {
        eprintln!("first: {first}");
    }
    ExitCode::from(u8::from(tally.differ > 0))
}
