//! Writes a record of hexx's answers for stored meshes and merges to standard
//! output. The arguments are those of `record-faces`.

use oracle::arguments;
use oracle::mesh_cases;
use oracle::random::Random;
use std::io::{self, BufWriter, Write};

fn main() -> io::Result<()> {
    let cases = match arguments::asked("record-meshes")? {
        None => mesh_cases::recorded(),
        Some((count, seed)) => mesh_cases::drawn(&mut Random::new(seed), count),
    };
    let mut out = BufWriter::new(io::stdout().lock());
    oracle::mesh_record::write(&mut out, &cases)?;
    out.flush()
}
