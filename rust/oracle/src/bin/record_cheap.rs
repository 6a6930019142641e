//! Writes a record of hexx's answers for cheap columns to standard output. The
//! arguments are those of `record-faces`, and draw the columns that go with the
//! meshes of `record-meshes`.

use oracle::arguments;
use oracle::mesh_cases;
use oracle::random::Random;
use std::io::{self, BufWriter, Write};

fn main() -> io::Result<()> {
    let cases = match arguments::asked("record-cheap")? {
        None => mesh_cases::recorded(),
        Some((count, seed)) => mesh_cases::drawn(&mut Random::new(seed), count),
    };
    let mut out = BufWriter::new(io::stdout().lock());
    oracle::mesh_record::write_columns(&mut out, &cases)?;
    out.flush()
}
