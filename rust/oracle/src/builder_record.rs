//! Writes planes and columns and the answers for them as cells: a line of the
//! job, one of each option, one of each vertex and one of each triangle.

use crate::builder_cases::Cases;
use crate::builders::{Choice, Column, Plane, Standing};
use crate::line::{Line, named, write_line};
use crate::{FaceOptions, MeshInfo};
use glam::Vec3;
use std::io::{self, Write};

/// The cells of a plane's job and of a column's.
const PLANE: usize = 36;
/// See [`PLANE`].
const COLUMN: usize = 71;

/// The most vertices and indices of a column here; its faces are fewer than 33.
const VERTICES: usize = 264;
/// See [`VERTICES`].
const INDICES: usize = 996;

/// Writes a record of planes.
pub fn write_planes(out: &mut impl Write, cases: &Cases<Plane>) -> io::Result<()> {
    named(out, "planes", cases.plain.len())?;
    for case in &cases.plain {
        plane(out, case, &case.hexx())?;
    }
    named(out, "turned", cases.turned.len())?;
    for case in &cases.turned {
        plane(out, case, &case.written())?;
    }
    Ok(())
}

/// Writes a record of columns.
pub fn write_columns(out: &mut impl Write, cases: &Cases<Column>) -> io::Result<()> {
    named(out, "columns", cases.plain.len())?;
    for case in &cases.plain {
        column(out, case, &case.hexx())?;
    }
    named(out, "turned", cases.turned.len())?;
    for case in &cases.turned {
        column(out, case, &case.written())?;
    }
    Ok(())
}

fn plane(out: &mut impl Write, case: &Plane, mesh: &MeshInfo) -> io::Result<()> {
    let mut line = Line::default();
    for corner in case.corners {
        line.given(&corner.to_array());
    }
    line.choice(case.choice);
    line.standing(&case.standing);
    line.count(case.options.len());
    line.counts(mesh);
    write_line(out, &line, PLANE)?;
    lists(out, &case.options, mesh)
}

fn column(out: &mut impl Write, case: &Column, mesh: &MeshInfo) -> io::Result<()> {
    let mut line = Line::default();
    for end in case.ends.as_flattened() {
        line.given(&end.to_array());
    }
    for corner in case.corners {
        line.given(&corner.to_array());
    }
    line.given(&[case.height]);
    line.mark(case.subdivisions.is_some());
    line.word(case.subdivisions.unwrap_or(0));
    for choice in case.sides.into_iter().chain([case.top, case.bottom]) {
        line.choice(choice);
    }
    line.standing(&case.standing);
    line.count(case.options.len());
    line.word(case.faces());
    line.counts(mesh);
    write_line(out, &line, COLUMN)?;
    lists(out, &case.options, mesh)
}

/// A line of each option, of each vertex and of each triangle.
fn lists(out: &mut impl Write, options: &[FaceOptions], mesh: &MeshInfo) -> io::Result<()> {
    let count = mesh.vertices.len();
    assert!(mesh.normals.len() == count && mesh.uvs.len() == count);
    assert!(count <= VERTICES && mesh.indices.len() <= INDICES);
    for option in options {
        let mut line = Line::default();
        line.given_options(option);
        write_line(out, &line, 13)?;
    }
    for vertex in 0..count {
        let mut line = Line::default();
        line.vec3(mesh.vertices[vertex]);
        line.vec3(mesh.normals[vertex]);
        line.vec2(mesh.uvs[vertex]);
        write_line(out, &line, 8)?;
    }
    for triangle in mesh.indices.chunks(3) {
        let mut line = Line::default();
        triangle.iter().for_each(|&i| line.word(u32::from(i)));
        write_line(out, &line, 3)?;
    }
    Ok(())
}

impl Line {
    /// The number of an option: 255 for the default, 256 for no face.
    fn choice(&mut self, choice: Choice) {
        match choice {
            Choice::Absent => self.word(256),
            Choice::Default => self.word(255),
            Choice::Entry(entry) => self.count(entry),
        }
    }

    fn standing(&mut self, standing: &Standing) {
        self.given(&standing.position.to_array());
        self.supplied(standing.scale);
        self.mark(standing.turn.is_some());
        for row in standing.rows().unwrap_or_default() {
            self.given(&row.to_array());
        }
        self.supplied(standing.offset);
    }

    fn supplied(&mut self, three: Option<Vec3>) {
        self.mark(three.is_some());
        self.given(&three.unwrap_or_default().to_array());
    }
}
