//! Writes a record of hexx's answers for faces to standard output, and what
//! it was made with to standard error. With a count and a seed, the cases are
//! that many drawn ones of each kind in place of the repository's.

use oracle::arguments;
use oracle::cases;
use oracle::random::Random;
use std::io::{self, BufWriter, Write};

fn main() -> io::Result<()> {
    let cases = match arguments::asked("record-faces")? {
        None => cases::recorded(),
        Some((count, seed)) => cases::drawn(&mut Random::new(seed), count),
    };
    let mut out = BufWriter::new(io::stdout().lock());
    oracle::record::write(&mut out, &cases)?;
    out.flush()
}
