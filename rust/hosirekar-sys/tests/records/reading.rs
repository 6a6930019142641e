//! The text of a record: lines of cells, each of eight hexadecimal digits.

use crate::common::{jobs::Table, Mesh};
use hosirekar_sys::*;
use std::fs;
use std::path::Path;

/// A record, read line by line.
pub struct Record {
    name: &'static str,
    lines: std::vec::IntoIter<String>,
    read: usize,
}

impl Record {
    pub fn open(name: &'static str) -> Record {
        // Cargo runs a test in its package's folder.
        let path = Path::new("tests/records").join(name);
        let text = fs::read_to_string(&path);
        let text = text.unwrap_or_else(|why| panic!("{}: {why}", path.display()));
        assert!(text.ends_with('\n'), "{name} has no last newline");
        let lines: Vec<String> = text.lines().map(str::to_owned).collect();
        Record {
            name,
            lines: lines.into_iter(),
            read: 0,
        }
    }

    fn line(&mut self) -> String {
        self.read += 1;
        let line = self.lines.next();
        line.unwrap_or_else(|| panic!("{} ends before line {}", self.name, self.read))
    }

    /// The next line, which has so many cells.
    pub fn cells(&mut self, count: usize) -> Cells {
        let line = self.line();
        let cells: Option<Vec<u32>> = line.split(' ').map(cell).collect();
        let place = format!("{}, line {}", self.name, self.read);
        let cells = cells.unwrap_or_else(|| panic!("{place} has no cells"));
        assert_eq!(cells.len(), count, "{place}");
        let cells = cells.into_iter();
        Cells { cells, place }
    }

    /// The next part, which has this name and so many cases. Each is told what to call it.
    pub fn part(&mut self, name: &str, count: usize, mut case: impl FnMut(&mut Record, &str)) {
        let head = self.line();
        let wanted = format!("{name:<8} {count:08}");
        assert_eq!(head, wanted, "{}, line {}", self.name, self.read);
        for number in 0..count {
            let line = self.read + 1;
            let what = format!("{}, {name} {number} (line {line})", self.name);
            case(self, &what);
        }
    }

    /// Nothing may follow.
    pub fn end(mut self) {
        let more = self.lines.next();
        assert_eq!(more, None, "{} goes on after its end", self.name);
    }
}

fn cell(text: &str) -> Option<u32> {
    let plain = |digit: u8| matches!(digit, b'0'..=b'9' | b'a'..=b'f');
    let lawful = text.len() == 8 && text.bytes().all(plain);
    let word = lawful.then(|| u32::from_str_radix(text, 16));
    word.and_then(Result::ok)
}

/// The cells of a line, taken one after another.
pub struct Cells {
    cells: std::vec::IntoIter<u32>,
    place: String,
}

impl Cells {
    pub fn word(&mut self) -> u32 {
        let word = self.cells.next();
        word.unwrap_or_else(|| panic!("{} is too short", self.place))
    }

    /// Takes the next cell if it is this word.
    pub fn next_is(&mut self, word: u32) -> bool {
        let is = self.cells.as_slice().first() == Some(&word);
        if is {
            self.word();
        }
        is
    }

    pub fn count(&mut self) -> usize {
        self.word() as usize
    }

    pub fn mark(&mut self) -> bool {
        let word = self.word();
        assert!(word < 2, "{}: a mark is {word:08x}", self.place);
        word == 1
    }

    /// A byte: a mark that has more than two meanings, or the number of an option.
    pub fn byte(&mut self) -> u8 {
        let word = self.word();
        u8::try_from(word).unwrap_or_else(|_| panic!("{}: {word:08x} is no byte", self.place))
    }

    pub fn index(&mut self) -> u16 {
        let word = self.word();
        u16::try_from(word).unwrap_or_else(|_| panic!("{}: {word:08x} is no index", self.place))
    }

    pub fn float(&mut self) -> f32 {
        let word = self.word();
        let float = f32::from_bits(word);
        let lawful = !float.is_nan() || word == 0x7fc0_0000;
        assert!(lawful, "{}: a NaN is {word:08x}", self.place);
        float
    }

    pub fn floats(&mut self, count: usize) -> Vec<f32> {
        (0..count).map(|_| self.float()).collect()
    }

    pub fn vec2(&mut self) -> CVec2 {
        let (x, y) = (self.float(), self.float());
        CVec2 { x, y }
    }

    pub fn vec3(&mut self) -> CVec3 {
        let (x, y, z) = (self.float(), self.float(), self.float());
        CVec3 { x, y, z }
    }

    /// Counts, and four lists with room for so many vertices and indices, filled up with 0.
    pub fn mesh(&mut self, vertices: usize, indices: usize) -> Mesh {
        let (v, i) = (self.count(), self.count());
        let fits = v <= vertices && i <= indices;
        assert!(fits, "{}: counts {v} and {i}", self.place);
        let mut mesh = self.lists(vertices, indices);
        let blank = [
            mesh.vertices.split_off(3 * v),
            mesh.normals.split_off(3 * v),
            mesh.uvs.split_off(2 * v),
        ];
        let blank = blank.concat().iter().all(|x| x.to_bits() == 0);
        let blank = blank && mesh.indices.split_off(i).iter().all(|x| *x == 0);
        assert!(blank, "{} has more than its counts", self.place);
        mesh
    }

    /// Four lists.
    pub fn lists(&mut self, vertices: usize, indices: usize) -> Mesh {
        Mesh {
            vertices: self.floats(3 * vertices),
            normals: self.floats(3 * vertices),
            uvs: self.floats(2 * vertices),
            indices: (0..indices).map(|_| self.index()).collect(),
        }
    }

    /// The thirteen cells of an option, put behind those that a table has.
    pub fn option(&mut self, table: &mut Table) {
        let flips = [self.mark(), self.mark()];
        table.numbers.extend(self.floats(8));
        let kind = self.byte();
        table.numbers.push(self.float());
        let keep = self.mark();
        let [u, v] = flips.map(u8::from);
        table.marks.extend([u, v, kind, u8::from(keep)]);
    }

    /// No cell may be left.
    pub fn end(self) {
        assert_eq!(self.cells.len(), 0, "{} is too long", self.place);
    }
}
