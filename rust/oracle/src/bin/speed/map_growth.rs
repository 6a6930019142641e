//! How the time of a map grows with its cells: a whole build and one face.

use crate::hills::{Asked, again, hills, level, ways};
use crate::maps::Given;
use crate::rows::{Headed, Rows, least};
use oracle::buffers::Buffers;
use oracle::maps::Map;
use oracle::ours::Job;
use oracle::random::Random;
use std::hint::black_box;

/// How far maps with hills reach; the greatest has nearly all vertices.
const RADII: [i32; 6] = [1, 2, 5, 10, 20, 34];

/// How many cells level maps have; of the last every vertex can just be
/// numbered.
const CELLS: [usize; 7] = [7, 19, 91, 331, 1261, 3571, 10_922];

/// A table for each.
pub fn tell(rows: &Rows) {
    let table = &mut Headed::by(&[
        "growth",
        "cells",
        "faces",
        "hexx, µs",
        "build, µs",
        "ns a cell",
        "first face, µs",
        "last face, µs",
        "ns a cell",
    ]);
    let random = &mut Random::new(4);
    let [plain, ..] = ways();
    for radius in RADII {
        row(rows, table, "hills", &hills(&plain, radius, random));
    }
    for cells in CELLS {
        row(rows, table, "level", &level(cells));
    }
}

fn row(rows: &Rows, table: &mut Headed, ground: &str, map: &Map) {
    let cells = map.count();
    if !rows.has(&format!("growth, {ground}, {cells}")) {
        return;
    }
    let faces = map.face_counts().len();
    let [hexx, build, first, last] = times(map, faces - 1);
    let [of_build, of_face] = [build, last].map(|time| 1000.0 * time / cells as f64);
    table.row(&format!(
        "| {ground} | {cells} | {faces} | {hexx:.2} | {build:.2} | {of_build:.1} \
         | {first:.2} | {last:.2} | {of_face:.1} |"
    ));
}

/// Microseconds of hexx's build, of ours, and of the first and the last face.
fn times(map: &Map, end: usize) -> [f64; 4] {
    let asked = Asked::of(map);
    let builder = asked.builder(map);
    let given = &Given::of(map);
    let lengths = given.counts().lengths();
    let [mut whole, mut one, mut other] = [(); 3].map(|()| Buffers::marked(lengths));
    let mut hexx = || {
        black_box(again(black_box(&builder)).build());
    };
    let mut build = || {
        black_box(given).build(whole.lent());
        black_box(&mut whole);
    };
    let mut first = || {
        black_box(given).face(black_box(0), one.lent());
        black_box(&mut one);
    };
    let mut last = || {
        black_box(given).face(black_box(end), other.lent());
        black_box(&mut other);
    };
    let all = least(&mut [&mut hexx, &mut build, &mut first, &mut last]);
    [all[0], all[1], all[2], all[3]].map(|time| time * 1e6)
}
