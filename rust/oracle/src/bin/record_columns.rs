//! Writes a record of columns to standard output: hexx's answers, and those of
//! the written steps where there is a turn or a bottom. The arguments are those
//! of `record-faces`.

use oracle::arguments;
use oracle::builder_cases;
use oracle::random::Random;
use std::io::{self, BufWriter, Write};

fn main() -> io::Result<()> {
    let cases = match arguments::asked("record-columns")? {
        None => builder_cases::recorded_columns(),
        Some((count, seed)) => builder_cases::drawn_columns(&mut Random::new(seed), count),
    };
    let mut out = BufWriter::new(io::stdout().lock());
    oracle::builder_record::write_columns(&mut out, &cases)?;
    out.flush()
}
