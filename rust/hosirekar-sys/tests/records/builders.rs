//! Planes, columns and cheap columns.

use crate::common::jobs::{hold_faces, hold_job, CheapColumn, Column, Plane, Table};
use crate::common::Mesh;
use crate::reading::{Cells, Record};
use hosirekar_sys::*;

fn choice3(cells: &mut Cells) -> CChoice3 {
    let (given, value) = (cells.mark(), cells.vec3());
    CChoice3 { given, value }
}

fn placement(cells: &mut Cells) -> CPlacement {
    CPlacement {
        scale: choice3(cells),
        turn: CTurn {
            given: cells.mark(),
            first: cells.vec3(),
            second: cells.vec3(),
            third: cells.vec3(),
        },
        offset: choice3(cells),
    }
}

/// The number of an option; 256 is none.
fn choice(cells: &mut Cells) -> CChoice {
    match cells.next_is(256) {
        true => CChoice::default(),
        false => CChoice {
            given: true,
            option: cells.byte(),
        },
    }
}

/// A line of each option.
fn table(record: &mut Record, options: usize) -> Table {
    let mut table = Table::default();
    for _ in 0..options {
        let mut cells = record.cells(13);
        cells.option(&mut table);
        cells.end();
    }
    table
}

/// A line of each vertex and of each triangle.
fn mesh(record: &mut Record, vertices: usize, indices: usize) -> Mesh {
    let mut mesh = Mesh::known([0; 4]);
    for _ in 0..vertices {
        let mut cells = record.cells(8);
        mesh.vertices.extend(cells.floats(3));
        mesh.normals.extend(cells.floats(3));
        mesh.uvs.extend(cells.floats(2));
    }
    for _ in 0..indices / 3 {
        let mut cells = record.cells(3);
        mesh.indices.extend((0..3).map(|_| cells.index()));
    }
    mesh
}

fn plane(record: &mut Record, what: &str) {
    let mut cells = record.cells(36);
    let corners = cells.floats(12);
    let job = CPlane {
        option: cells.byte(),
        position: cells.vec2(),
        placement: placement(&mut cells),
    };
    let options = cells.count();
    let (vertices, indices) = (cells.count(), cells.count());
    cells.end();
    let plane = Plane {
        job,
        corners,
        table: table(record, options),
    };
    let whole = mesh(record, vertices, indices);
    hold_job(&plane, 1, &whole, what);
    hold_faces(&plane, 1, &whole, what);
}

fn column(record: &mut Record, what: &str) {
    let mut cells = record.cells(71);
    let (pairs, corners) = (cells.floats(24), cells.floats(12));
    let job = CColumn {
        height: cells.float(),
        subdivisions: CSubdivisions {
            given: cells.mark(),
            number: cells.word(),
        },
        sides: std::array::from_fn(|_| choice(&mut cells)),
        top: choice(&mut cells),
        bottom: choice(&mut cells),
        position: cells.vec2(),
        placement: placement(&mut cells),
    };
    let (options, faces) = (cells.count(), cells.count());
    let (vertices, indices) = (cells.count(), cells.count());
    cells.end();
    let column = Column {
        job,
        pairs,
        corners,
        table: table(record, options),
    };
    let whole = mesh(record, vertices, indices);
    hold_job(&column, faces, &whole, what);
    hold_faces(&column, faces, &whole, what);
}

fn cheap_column(record: &mut Record, what: &str) {
    let mut cells = record.cells(159);
    let corners = cells.floats(12);
    let job = CCheapColumn {
        centre: cells.vec2(),
        height: cells.float(),
    };
    let whole = cells.lists(12, 48);
    cells.end();
    let column = CheapColumn { job, corners };
    hold_job(&column, 1, &whole, what);
    hold_faces(&column, 1, &whole, what);
}

#[test]
fn planes() {
    let mut record = Record::open("planes.txt");
    record.part("planes", 330, plane);
    record.part("turned", 60, plane);
    record.end();
}

#[test]
fn columns() {
    let mut record = Record::open("columns.txt");
    record.part("columns", 440, column);
    record.part("turned", 60, column);
    record.end();
}

#[test]
fn cheap_columns() {
    let mut record = Record::open("cheap.txt");
    record.part("columns", 120, cheap_column);
    record.end();
}
