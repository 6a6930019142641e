//! Which rows are asked for, how each is timed, and how it is written.

use oracle::buffers::Buffers;
use std::hint::black_box;
use std::time::Instant;

/// How often each side is timed; the best counts. Many short readings, so
/// that each side has some while nothing else runs on the machine.
const READINGS: usize = 100;

/// How long a reading of hexx takes at least, in seconds.
const LEAST: f64 = 0.002;

/// The kinds of rows that can be asked for by name.
const KINDS: [&str; 7] = [
    "columns", "planes", "cheap", "faces", "maps", "why", "files",
];

/// What is asked for: kinds, and parts of the names of rows.
pub struct Rows {
    kinds: Vec<String>,
    parts: Vec<String>,
}

impl Rows {
    /// By the arguments of the program; all rows without any.
    pub fn asked() -> Self {
        let is_kind = |word: &String| KINDS.contains(&word.as_str());
        let (kinds, parts) = std::env::args().skip(1).partition(is_kind);
        Self { kinds, parts }
    }

    /// Whether rows of this kind may be asked for.
    pub fn of(&self, kind: &str) -> bool {
        self.kinds.is_empty() || self.kinds.iter().any(|asked| asked == kind)
    }

    /// Whether the row of this name is.
    pub fn has(&self, name: &str) -> bool {
        self.parts.is_empty() || self.parts.iter().any(|part| name.contains(part))
    }

    /// Times all sides in turns and writes a line.
    pub fn tell(&self, sides: Sides, job: &str, way: &str) {
        if self.has(&format!("{job}, {way}")) {
            sides.tell(job, way);
        }
    }
}

/// The sides of a comparison, each a pass over the set.
pub struct Sides<'s> {
    /// Vertices that a pass makes.
    pub vertices: usize,
    pub hexx: &'s mut dyn FnMut(),
    /// Into lent lists that are not cleared.
    pub lent: &'s mut dyn FnMut(),
    /// The safe crate's own build: a plan, and new cleared lists; of a map, its
    /// cells copied first.
    pub new: Option<&'s mut dyn FnMut()>,
    pub copy: &'s mut dyn FnMut(),
}

fn seconds(pass: &mut dyn FnMut(), passes: usize) -> f64 {
    let began = Instant::now();
    (0..passes).for_each(|_| pass());
    began.elapsed().as_secs_f64() / passes as f64
}

impl Sides<'_> {
    fn tell(self, job: &str, way: &str) {
        let once = seconds(self.hexx, 3);
        let passes = (LEAST / once).ceil() as usize;
        let mut best = [f64::INFINITY; 4];
        let mut new = self.new;
        for _ in 0..READINGS {
            best[0] = best[0].min(seconds(self.hexx, passes));
            best[1] = best[1].min(seconds(self.lent, passes));
            if let Some(new) = &mut new {
                best[2] = best[2].min(seconds(new, passes));
            }
            best[3] = best[3].min(seconds(self.copy, passes));
        }
        let [hexx, lent, new, copy] = best.map(|time| time * 1e9 / self.vertices as f64);
        let new = match new.is_finite() {
            true => format!("{new:.2} | {:.2}", new / hexx),
            false => "- | -".to_string(),
        };
        println!(
            "| {job} | {way} | {hexx:.2} | {lent:.2} | {:.2} | {new} | {copy:.2} |",
            lent / hexx
        );
    }
}

/// The least seconds of one pass of each side, timed in turns. Each has as
/// many passes in a reading as fill the time that a reading takes.
pub fn least(sides: &mut [&mut dyn FnMut()]) -> Vec<f64> {
    let passes: Vec<usize> = sides
        .iter_mut()
        .map(|side| (LEAST / seconds(side, 3)).ceil() as usize)
        .collect();
    let mut best = vec![f64::INFINITY; sides.len()];
    for _ in 0..READINGS {
        for (at, side) in sides.iter_mut().enumerate() {
            best[at] = best[at].min(seconds(side, passes[at]));
        }
    }
    best
}

/// Copies the lists of one mesh to another.
pub fn copy(from: &Buffers, to: &mut Buffers) {
    to.vertices.copy_from_slice(&from.vertices);
    to.normals.copy_from_slice(&from.normals);
    to.uvs.copy_from_slice(&from.uvs);
    to.indices.copy_from_slice(&from.indices);
    black_box(to);
}

/// A table whose heading comes with its first row.
pub struct Headed(Option<&'static [&'static str]>);

impl Headed {
    pub fn by(heading: &'static [&'static str]) -> Self {
        Self(Some(heading))
    }

    pub fn row(&mut self, row: &str) {
        if let Some(heading) = self.0.take() {
            let rule = "---|".repeat(heading.len());
            println!("\n| {} |\n|{rule}", heading.join(" | "));
        }
        println!("{row}");
    }
}
