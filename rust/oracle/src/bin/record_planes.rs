//! Writes a record of planes to standard output: hexx's answers, and those of
//! the written steps where there is a turn. The arguments are those
//! of `record-faces`.

use oracle::arguments;
use oracle::builder_cases;
use oracle::random::Random;
use std::io::{self, BufWriter, Write};

fn main() -> io::Result<()> {
    let cases = match arguments::asked("record-planes")? {
        None => builder_cases::recorded_planes(),
        Some((count, seed)) => builder_cases::drawn_planes(&mut Random::new(seed), count),
    };
    let mut out = BufWriter::new(io::stdout().lock());
    oracle::builder_record::write_planes(&mut out, &cases)?;
    out.flush()
}
