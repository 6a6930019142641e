//! Lines of cells of eight hexadecimal digits, of which every record is made.

use crate::MeshInfo;
use crate::numbers::LIMIT;
use glam::{Vec2, Vec3};
use std::io::{self, Write};

/// The pattern that stands for every NaN.
const NAN: u32 = 0x7fc0_0000;

/// The bits of `x`, the same for every NaN.
#[must_use]
pub fn bits(x: f32) -> u32 {
    if x.is_nan() { NAN } else { x.to_bits() }
}

/// Writes a part's name and count and a line of `cells` cells for each case.
pub(crate) fn part<T>(
    out: &mut impl Write,
    name: &str,
    cells: usize,
    cases: &[T],
    fill: impl Fn(&mut Line, &T),
) -> io::Result<()> {
    named(out, name, cases.len())?;
    for case in cases {
        let mut line = Line::default();
        fill(&mut line, case);
        write_line(out, &line, cells)?;
    }
    Ok(())
}

/// Writes a part's name and count.
pub(crate) fn named(out: &mut impl Write, name: &str, count: usize) -> io::Result<()> {
    writeln!(out, "{name:<9}{count:08}")
}

/// Writes a line, which must have so many cells.
pub(crate) fn write_line(out: &mut impl Write, line: &Line, cells: usize) -> io::Result<()> {
    assert_eq!(line.0.len(), cells, "a line has another length");
    let text: Vec<String> = line.0.iter().map(|cell| format!("{cell:08x}")).collect();
    writeln!(out, "{}", text.join(" "))
}

/// The cells of a line.
#[derive(Default)]
pub(crate) struct Line(Vec<u32>);

impl Line {
    pub(crate) fn word(&mut self, word: u32) {
        self.0.push(word);
    }

    pub(crate) fn count(&mut self, count: usize) {
        self.word(u32::try_from(count).expect("a mesh here is small"));
    }

    pub(crate) fn mark(&mut self, mark: bool) {
        self.word(u32::from(mark));
    }

    fn floats(&mut self, floats: &[f32]) {
        self.0.extend(floats.iter().map(|&x| bits(x)));
    }

    /// Numbers of a case, which are held to the range of inputs.
    pub(crate) fn given(&mut self, floats: &[f32]) {
        let in_range = floats.iter().all(|x| x.abs() <= LIMIT);
        assert!(in_range, "a case is out of range: {floats:?}");
        self.floats(floats);
    }

    pub(crate) fn vec2(&mut self, v: Vec2) {
        self.floats(&v.to_array());
    }

    pub(crate) fn vec3(&mut self, v: Vec3) {
        self.floats(&v.to_array());
    }

    /// Both counts and four lists, each filled up with zeros to its room.
    pub(crate) fn mesh(&mut self, mesh: &MeshInfo, vertices: usize, indices: usize) {
        self.counts(mesh);
        self.lists(mesh, vertices, indices);
    }

    pub(crate) fn counts(&mut self, mesh: &MeshInfo) {
        self.count(mesh.vertices.len());
        self.count(mesh.indices.len());
    }

    /// Four lists, each filled up with zeros to its room.
    pub(crate) fn lists(&mut self, mesh: &MeshInfo, vertices: usize, indices: usize) {
        let count = mesh.vertices.len();
        assert!(mesh.normals.len() == count && mesh.uvs.len() == count);
        self.padded(3 * vertices, |line| {
            mesh.vertices.iter().for_each(|&v| line.vec3(v));
        });
        self.padded(3 * vertices, |line| {
            mesh.normals.iter().for_each(|&v| line.vec3(v));
        });
        self.padded(2 * vertices, |line| {
            mesh.uvs.iter().for_each(|&v| line.vec2(v));
        });
        self.padded(indices, |line| {
            mesh.indices.iter().for_each(|&i| line.word(u32::from(i)));
        });
    }

    /// Cells that `fill` adds, and zeros after them up to `cells` cells.
    fn padded(&mut self, cells: usize, fill: impl Fn(&mut Self)) {
        let end = self.0.len() + cells;
        fill(self);
        assert!(self.0.len() <= end, "a mesh has more than its room");
        self.0.resize(end, 0);
    }
}
