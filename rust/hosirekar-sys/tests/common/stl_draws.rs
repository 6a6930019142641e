//! Drawn meshes and files of any bit patterns, lawful and faulty, through both directions.

use super::stl::{filed, length, Reading, Writing};
use super::{counts, done, longer, needs, refused, same, Lengths, Mesh};
use hosirekar_sys::CAnswer;
use std::collections::BTreeMap;
use std::fmt;

/// The ends of every class, and NaNs of every sort: signalling, negative and with a payload.
pub const EDGES: [u32; 20] = [
    0x0000_0000,
    0x8000_0000,
    0x0000_0001,
    0x8000_0001,
    0x007f_ffff,
    0x807f_ffff,
    0x0080_0000,
    0x3f80_0000,
    0x7f7f_ffff,
    0xff7f_ffff,
    0x7f80_0000,
    0xff80_0000,
    0x7f80_0001,
    0xff80_0001,
    0x7fbf_ffff,
    0x7fc0_0000,
    0xffc0_0000,
    0x7fc1_2345,
    0x7fff_ffff,
    0xffff_ffff,
];

/// Numbers drawn one after another (splitmix64).
pub struct Draws(u64);

impl Draws {
    pub fn new(seed: u64) -> Draws {
        Draws(seed)
    }

    pub fn word(&mut self) -> u32 {
        self.0 = self.0.wrapping_add(0x9e37_79b9_7f4a_7c15);
        let mut z = self.0;
        z = (z ^ (z >> 30)).wrapping_mul(0xbf58_476d_1ce4_e5b9);
        z = (z ^ (z >> 27)).wrapping_mul(0x94d0_49bb_1331_11eb);
        ((z ^ (z >> 31)) >> 32) as u32
    }

    /// A number below `end`, which is not 0.
    pub fn below(&mut self, end: usize) -> usize {
        ((u64::from(self.word()) * end as u64) >> 32) as usize
    }

    pub fn once_in(&mut self, times: usize) -> bool {
        self.below(times) == 0
    }

    fn pattern(&mut self) -> u32 {
        match self.below(4) {
            0 => EDGES[self.below(EDGES.len())],
            1 => (self.below(2_000) as f32 - 1_000.0).to_bits(),
            _ => self.word(),
        }
    }

    fn numbers(&mut self, length: usize) -> Vec<f32> {
        (0..length)
            .map(|_| f32::from_bits(self.pattern()))
            .collect()
    }

    fn bytes(&mut self, length: usize) -> Vec<u8> {
        (0..length).map(|_| self.word() as u8).collect()
    }

    /// How many triangles: a few, and now and then many, up to and past what is read.
    fn triangles(&mut self) -> usize {
        match self.below(8_192) {
            0 => 21_843 + self.below(5),
            1..64 => self.below(400),
            _ => self.below(9),
        }
    }

    /// How many vertices: fewer and more than there are corners, none, and about the limit.
    fn vertices(&mut self, triangles: usize) -> usize {
        match self.below(8_192) {
            0 => 65_535 + self.below(3),
            1..200 => 0,
            _ => 1 + self.below(3 * triangles + 2),
        }
    }

    /// A mesh of so many vertices and indices, with more past them that no mesh may have.
    fn mesh(&mut self, vertices: usize, indices: usize) -> Mesh {
        let lengths = longer(needs(vertices, indices));
        let mut mesh = Mesh {
            vertices: self.numbers(lengths[0]),
            normals: self.numbers(lengths[1]),
            uvs: self.numbers(lengths[2]),
            indices: vec![65_535; lengths[3]],
        };
        for index in &mut mesh.indices[..indices] {
            *index = self.below(vertices.clamp(1, 65_536)) as u16;
        }
        mesh
    }

    /// Lengths that are exact or longer, and now and then short in one list, or in any.
    fn lengths(&mut self, need: Lengths) -> Lengths {
        let mut lengths = match self.below(2) {
            0 => need,
            _ => longer(need),
        };
        if self.once_in(8) {
            let list = self.below(4);
            lengths[list] = need[list].saturating_sub(1);
        }
        if self.once_in(32) {
            lengths = lengths.map(|length| self.below(length + 1));
        }
        lengths
    }

    /// A length of bytes: exact, longer, one short, or any that is short.
    fn room(&mut self, need: usize) -> usize {
        match self.below(16) {
            0 => need - 1,
            1 => self.below(need),
            2..8 => need + 1 + self.below(100),
            _ => need,
        }
    }

    /// A count that is handed over in place of the right one, far too great, somewhat, or smaller.
    fn count(&mut self, right: usize) -> usize {
        match self.below(4) {
            0 => usize::MAX / (1 + self.below(4)) - self.below(2),
            1 => right + 1 + self.below(3),
            2 => self.below(right + 1),
            _ => right,
        }
    }

    /// A call that writes, with none, one or several faults.
    pub fn writing(&mut self) -> Writing {
        let triangles = self.triangles();
        let vertices = self.vertices(triangles);
        let indices = 3 * triangles + [1, 2].get(self.below(24)).unwrap_or(&0);
        let mut mesh = self.mesh(vertices, indices);
        if indices > 0 && vertices <= 65_535 && self.once_in(16) {
            let astray = vertices + self.below(65_536 - vertices);
            mesh.indices[self.below(indices)] = astray as u16;
        }
        let mut counts = counts(vertices, indices);
        if self.once_in(32) {
            counts.vertices = self.count(vertices);
            counts.indices = self.count(indices);
        }
        Writing {
            counts,
            mesh,
            given: self.lengths(needs(vertices, indices)),
            room: self.room(length(indices / 3)),
        }
    }

    /// The bytes of so many triangles, with any header and any attributes.
    fn file(&mut self, triangles: usize) -> Vec<u8> {
        let mut file = match self.below(4) {
            0 => vec![0; 80],
            1 => [b"solid ".to_vec(), vec![b' '; 74]].concat(),
            _ => self.bytes(80),
        };
        file.extend((triangles as u32).to_le_bytes());
        for _ in 0..triangles {
            file.extend((0..12).flat_map(|_| self.pattern().to_le_bytes()));
            let attributes = [self.word() as u8, self.word() as u8];
            file.extend([attributes, [0, 0]][self.below(2)]);
        }
        file
    }

    /// A file whose length and count no longer agree, but for some luck.
    fn damage(&mut self, file: &mut Vec<u8>) {
        let count = u32::from_le_bytes(file[80..84].try_into().unwrap());
        let other = match self.below(8) {
            0 => count.wrapping_add(1),
            1 => count.wrapping_sub(1),
            2 => count.swap_bytes(),
            3 => count ^ 1 << self.below(32),
            _ => count,
        };
        file[80..84].copy_from_slice(&other.to_le_bytes());
        match self.below(6) {
            0 => file.truncate(self.below(file.len())),
            1 => file.truncate(file.len() - 1),
            2 => file.push(0),
            3 => file.extend([0; 50]),
            _ => (),
        }
    }

    /// A call that reads, with none, one or several faults.
    pub fn reading(&mut self) -> Reading {
        let triangles = self.triangles();
        let mut bytes = self.file(triangles);
        if self.once_in(4) {
            self.damage(&mut bytes);
        }
        let lent = self.lengths(needs(3 * triangles, 3 * triangles));
        Reading { bytes, lent }
    }
}

/// Reads a file back that was written: each triangle has its corners and the normal of its first vertex.
pub fn written_and_read(writing: &Writing) -> Option<String> {
    let indices = writing.counts.indices;
    let mut bytes = vec![1; writing.room];
    let file = writing.call(&mut bytes);
    bytes.truncate(file.bytes);
    let reading = Reading::exact(bytes, indices / 3);
    let mut made = Mesh::known(reading.lent);
    let given = reading.call(&mut made);
    let answer = match indices {
        65_538.. => refused(4),
        _ => done(indices, indices),
    };
    if given != answer {
        return Some(format!("read back, answers {given:?}, not {answer:?}"));
    }
    let place = (0..given.vertices).find(|place| !is_back(&writing.mesh, &made, *place))?;
    Some(format!("corner {place} is not read back"))
}

/// Whether a vertex that was read is the corner of that place, with the normal of its triangle.
fn is_back(from: &Mesh, made: &Mesh, place: usize) -> bool {
    let [corner, first] = [place, place - place % 3].map(|k| 3 * usize::from(from.indices[k]));
    let is_same = |k: usize| {
        let (vertex, normal) = (made.vertices[3 * place + k], made.normals[3 * place + k]);
        same(vertex, from.vertices[corner + k]) && same(normal, from.normals[first + k])
    };
    let uv = [made.uvs[2 * place], made.uvs[2 * place + 1]].map(f32::to_bits);
    (0..3).all(is_same) && uv == [0, 0] && usize::from(made.indices[place]) == place
}

/// Writes again what was read: the same file, but for its header, its attributes and the patterns of NaNs.
pub fn read_and_written(reading: &Reading) -> Option<String> {
    let mut mesh = Mesh::known(reading.lent);
    let read = reading.call(&mut mesh);
    let need = length(read.indices / 3);
    let writing = Writing {
        counts: counts(read.vertices, read.indices),
        mesh,
        given: reading.lent,
        room: need,
    };
    let mut made = vec![1; need];
    let file = writing.call(&mut made);
    if (file.answer, file.bytes) != (done(read.vertices, read.indices), need) {
        return Some(format!("written again, answers {file:?}"));
    }
    let wanted = cleaned(&reading.bytes);
    let place = (0..need).find(|place| made[*place] != wanted[*place])?;
    Some(format!("byte {place} is not written again"))
}

/// A file with its header and its attributes zero, and every NaN the same.
fn cleaned(file: &[u8]) -> Vec<u8> {
    let mut cleaned = vec![0; 80];
    cleaned.extend(&file[80..84]);
    for triangle in file[84..].chunks(50) {
        let words = triangle[..48].chunks(4);
        let numbers = words.map(|word| f32::from_le_bytes(word.try_into().unwrap()));
        cleaned.extend(numbers.flat_map(|x| filed(x).to_le_bytes()));
        cleaned.extend([0, 0]);
    }
    cleaned
}

/// What was tried, and what differed.
#[derive(Debug, Default)]
pub struct Tally {
    /// How many calls wrote or read, and how many triangles these were.
    pub done: [u64; 2],
    pub triangles: [u64; 2],
    /// How many calls of each sort were refused, by the number.
    pub refused: [BTreeMap<u32, u64>; 2],
    pub differ: u64,
    pub first: Option<String>,
}

impl Tally {
    /// Runs so many drawn meshes, each written, and as many drawn files, each read.
    pub fn run(count: u64, seed: u64) -> Tally {
        let (mut tally, mut draws) = (Tally::default(), Draws::new(seed));
        for _ in 0..count {
            tally.write(&draws.writing());
            tally.read(&draws.reading());
        }
        tally
    }

    fn write(&mut self, writing: &Writing) {
        let plain = writing.plain();
        let triangles = writing.counts.indices / 3;
        self.count(0, triangles, plain.as_ref().err());
        let back = || plain.ok().and_then(|_| written_and_read(writing));
        let differs = writing.difference().or_else(back);
        self.add(differs.map(|why| format!("written: {why}")));
    }

    fn read(&mut self, reading: &Reading) {
        let plain = reading.plain();
        let triangles = reading.bytes.len().saturating_sub(84) / 50;
        self.count(1, triangles, plain.as_ref().err());
        let again = || plain.ok().and_then(|_| read_and_written(reading));
        let differs = reading.difference().or_else(again);
        self.add(differs.map(|why| format!("read: {why}")));
    }

    fn count(&mut self, sort: usize, triangles: usize, why: Option<&CAnswer>) {
        match why {
            Some(answer) => *self.refused[sort].entry(answer.number).or_default() += 1,
            None => {
                self.done[sort] += 1;
                self.triangles[sort] += triangles as u64;
            }
        }
    }

    fn add(&mut self, differs: Option<String>) {
        self.differ += u64::from(differs.is_some());
        self.first = self.first.take().or(differs);
    }

    /// How many calls of a sort were refused, by number.
    fn refusals(&self, sort: usize) -> String {
        let met = self.refused[sort].iter();
        let told = met.map(|(number, times)| format!("{number}: {times}"));
        told.collect::<Vec<_>>().join(", ")
    }
}

impl fmt::Display for Tally {
    fn fmt(&self, f: &mut fmt::Formatter<'_>) -> fmt::Result {
        let [written, read] = self.done;
        let [out, back] = self.triangles;
        write!(f, "{written} written with {out} triangles ")?;
        write!(f, "(refused {}), ", self.refusals(0))?;
        write!(f, "{read} read with {back} triangles ")?;
        write!(f, "(refused {}), ", self.refusals(1))?;
        write!(f, "{} differ", self.differ)
    }
}
