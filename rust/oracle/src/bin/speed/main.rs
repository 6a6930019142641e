//! Times hexx and our own code on the same jobs, in turns, and the copying of
//! the same bytes beside them; of files, which hexx has not, the copying alone,
//! and of what is told of walls and faces the plan. Arguments choose the rows:
//! kinds (`columns`, `planes`, `cheap`, `faces`, `maps`, `why`, `files`) and
//! parts of names.

mod files;
mod hills;
mod jobs;
mod map_growth;
mod maps;
mod rows;
mod why;

use rows::Rows;

fn main() {
    eprintln!("made with {}", oracle::MADE_WITH);
    let rows = &Rows::asked();
    jobs::tell(rows);
    if rows.of("maps") {
        maps::whole(rows);
        maps::faces(rows);
        map_growth::tell(rows);
    }
    if rows.of("why") {
        why::tell(rows);
    }
    if rows.of("files") {
        files::tell(rows);
    }
}
