//! Writes the record of the program that is named, `replay` or `replay_maps`, to
//! standard output. With a count and a seed, the cases that are done are that
//! many drawn ones of each part in place of the repository's. Of `replay_maps` it
//! writes to standard error what room the maps need in it.

use oracle::arguments;
use oracle::map_runs::Greatest;
use oracle::random::Random;
use oracle::replay_record::{self, Program};
use std::io::{self, BufWriter, Write};

fn main() -> io::Result<()> {
    let named = std::env::args().nth(1);
    let Some(program) = named.and_then(|name| Program::named(&name)) else {
        return Err(io::Error::other(
            "record-jobs replay | replay_maps [count seed]",
        ));
    };
    let sets = match arguments::asked_after("record-jobs replay | replay_maps", 1)? {
        None => replay_record::recorded(),
        Some((count, seed)) => replay_record::drawn(&mut Random::new(seed), count),
    };
    if program == Program::ReplayMaps {
        eprint!("{}", Greatest::of(&replay_record::maps(&sets.maps)));
    }
    let mut out = BufWriter::new(io::stdout().lock());
    replay_record::write(&mut out, program, &sets)?;
    out.flush()
}
