//! What every recorder is asked for.

use std::{env, io};

/// The count and the seed of drawn cases, or nothing where the repository's
/// own are asked for. Says on standard error what answers.
pub fn asked(program: &str) -> io::Result<Option<(usize, u64)>> {
    asked_after(program, 0)
}

/// The same behind so many other arguments.
pub fn asked_after(program: &str, others: usize) -> io::Result<Option<(usize, u64)>> {
    let arguments: Vec<String> = env::args().skip(1 + others).collect();
    let read = match arguments.as_slice() {
        [] => Some(None),
        [count, seed] => count.parse().ok().zip(seed.parse().ok()).map(Some),
        _ => None,
    };
    let usage = || io::Error::other(format!("{program} [count seed]"));
    let asked = read.ok_or_else(usage)?;
    eprintln!("made with {}", crate::MADE_WITH);
    Ok(asked)
}
