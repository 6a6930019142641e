//! Uvs, and those quads and hexagons that are a face of a job.

use crate::common::jobs::{hold_faces, hold_job, Column, Job, Plane, Table};
use crate::common::{done, hold, Mesh};
use crate::reading::{Cells, Record};
use hosirekar_sys::*;

/// What adding it changes no number, not even -0.
const NOTHING: CVec2 = CVec2 { x: -0.0, y: -0.0 };

fn point(record: &mut Record, what: &str) {
    let mut cells = record.cells(14);
    let (u, v) = (cells.mark(), cells.mark());
    let options = CUvOptions {
        scale: cells.vec2(),
        offset: cells.vec2(),
        min: cells.vec2(),
        max: cells.vec2(),
        flip: CFlip { u, v },
    };
    let altered = hosirekar_alter_uv(options, cells.vec2());
    hold(&[altered.x, altered.y], &cells.floats(2), what);
    cells.end();
}

fn wrap(record: &mut Record, what: &str) {
    let mut cells = record.cells(4);
    let wrapped = hosirekar_wrap_uv(cells.vec2());
    hold(&[wrapped.x, wrapped.y], &cells.floats(2), what);
    cells.end();
}

/// The options of a face: one entry of a table, and when its uvs are altered.
struct Options {
    table: Table,
    after: bool,
}

impl Options {
    fn read(cells: &mut Cells) -> Options {
        let mut table = Table::default();
        cells.option(&mut table);
        let after = cells.mark();
        Options { table, after }
    }

    fn has_inset(&self) -> bool {
        self.table.marks[2] != 0
    }
}

/// A mesh as it stands in a job: 0 is added to each height.
fn standing(mut mesh: Mesh) -> Mesh {
    for y in mesh.vertices.iter_mut().skip(1).step_by(3) {
        *y += 0.0;
    }
    mesh
}

const FACE: CChoice = CChoice {
    given: true,
    option: 0,
};

/// A plane's uvs are altered after the inset, which is all the same where there is none.
fn hexagon(record: &mut Record, what: &str) -> bool {
    let mut cells = record.cells(172);
    let corners = cells.floats(12);
    let options = Options::read(&mut cells);
    let whole = standing(cells.mesh(12, 48));
    cells.end();
    if options.has_inset() && !options.after {
        return false;
    }
    let job = CPlane {
        position: NOTHING,
        option: 0,
        placement: CPlacement::default(),
    };
    let table = options.table;
    let plane = Plane {
        job,
        corners,
        table,
    };
    hold_job(&plane, 1, &whole, what);
    hold_faces(&plane, 1, &whole, what);
    true
}

/// How a column stands whose last part is a quad between two heights.
struct Stand {
    parts: u32,
    height: f32,
    offset: CChoice3,
}

/// The column that has the quad as its last part, if there is one of few parts.
fn last_part(foot: f32, top: f32) -> Option<Stand> {
    let fits = |parts: &u32| {
        let delta = top / *parts as f32;
        let at = delta * (*parts - 1) as f32;
        (at.to_bits(), (at + delta).to_bits()) == (foot.to_bits(), top.to_bits())
    };
    (1..=64).find(fits).map(|parts| Stand {
        parts,
        height: top,
        offset: CChoice3::default(),
    })
}

/// The column that stands on an offset. That is the quad only if it has no inset.
fn lifted(foot: f32, top: f32) -> Option<Stand> {
    let height = top - foot;
    let reached = height + foot + 0.0;
    let fits = height.abs() <= 1e6 && reached.to_bits() == (top + 0.0).to_bits();
    let value = CVec3 {
        x: -0.0,
        y: foot,
        z: -0.0,
    };
    let offset = CChoice3 { given: true, value };
    fits.then_some(Stand {
        parts: 1,
        height,
        offset,
    })
}

/// The column with one side, of this number, whose uvs are altered before the inset.
fn wall(ends: &[f32], side: usize, stand: &Stand, table: Table) -> Column {
    let mut job = CColumn {
        height: stand.height,
        subdivisions: CSubdivisions {
            given: true,
            number: stand.parts,
        },
        position: NOTHING,
        ..CColumn::default()
    };
    job.sides[side] = FACE;
    job.placement.offset = stand.offset;
    let mut pairs = vec![0.0; 24];
    pairs[4 * side..4 * side + 4].copy_from_slice(ends);
    Column {
        job,
        pairs,
        corners: vec![0.0; 12],
        table,
    }
}

/// Holds the last of equal faces of a job to a mesh, and all calls to the whole build.
fn hold_last(job: &impl Job, faces: usize, mesh: &Mesh, what: &str) {
    let mut whole = Mesh::known(mesh.lengths().map(|length| faces * length));
    let counts = mesh.counts();
    let all = done(faces * counts.vertices, faces * counts.indices);
    assert_eq!(job.build(whole.all()), all, "{what}");
    let (mut last, before) = (whole.clone(), faces - 1);
    last.vertices.drain(..before * mesh.vertices.len());
    last.normals.drain(..before * mesh.normals.len());
    last.uvs.drain(..before * mesh.uvs.len());
    last.indices.drain(..before * mesh.indices.len());
    for index in &mut last.indices {
        *index -= (before * counts.vertices) as u16;
    }
    last.hold(mesh, what);
    hold_job(job, faces, &whole, what);
    hold_faces(job, faces, &whole, what);
}

/// A side's uvs are altered before the inset, which is all the same where there is none.
fn quad(record: &mut Record, side: usize, what: &str) -> bool {
    let mut cells = record.cells(119);
    let ends = cells.floats(4);
    let (foot, top) = (cells.float(), cells.float());
    let (bounded, _range) = (cells.mark(), cells.vec2());
    let options = Options::read(&mut cells);
    let mesh = standing(cells.mesh(8, 30));
    cells.end();
    let inset = options.has_inset();
    if bounded || (inset && options.after) {
        return false;
    }
    let stand = match last_part(foot, top) {
        None if !inset => lifted(foot, top),
        found => found,
    };
    let Some(stand) = stand else { return false };
    let job = wall(&ends, side, &stand, options.table);
    hold_last(&job, stand.parts as usize, &mesh, what);
    true
}

/// How many quads and how many hexagons are a face of a job; docs/CASES.md tells of the others.
const QUADS: usize = 60;
const HEXAGONS: usize = 132;

#[test]
fn uvs_and_faces() {
    let mut record = Record::open("faces.txt");
    record.part("points", 300, point);
    record.part("wraps", 150, wrap);
    let (mut quads, mut hexagons, mut side) = (0, 0, 0);
    record.part("quads", 260, |record, what| {
        quads += usize::from(quad(record, side, what));
        side = (side + 1) % 6;
    });
    record.part("hexagons", 220, |record, what| {
        hexagons += usize::from(hexagon(record, what));
    });
    record.end();
    assert_eq!((quads, hexagons), (QUADS, HEXAGONS));
}
