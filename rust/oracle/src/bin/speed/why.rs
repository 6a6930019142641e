//! Why a wall is missing and which face a number is, beside the plan of the
//! same map: one walk over the cells each.

use crate::hills::{hills, ways};
use crate::maps::Given;
use crate::rows::{Headed, Rows, least};
use oracle::maps::Map;
use oracle::ours::Job;
use oracle::random::Random;
use std::hint::black_box;

/// Of each way a small map and the greatest.
pub fn tell(rows: &Rows) {
    let table = &mut Headed::by(&[
        "told",
        "cells",
        "plan, µs",
        "why, first",
        "why, last",
        "which, first",
        "which, last",
        "greatest ratio",
    ]);
    let random = &mut Random::new(5);
    for way in ways() {
        for radius in [5, way.radius] {
            row(rows, table, way.name, &hills(&way, radius, random));
        }
    }
}

fn row(rows: &Rows, table: &mut Headed, name: &str, map: &Map) {
    let cells = map.count();
    if !rows.has(&format!("why, {name}, {cells}")) {
        return;
    }
    let [plan, told @ ..] = times(map);
    let ratio = told.iter().fold(0.0f64, |most, time| most.max(time / plan));
    let told = told.map(|time| format!("{time:.2}")).join(" | ");
    table.row(&format!(
        "| {name} | {cells} | {plan:.2} | {told} | {ratio:.2} |"
    ));
}

/// Microseconds of the plan, of `why` for the first side and the last, and of
/// `which` for the first face and the last.
fn times(map: &Map) -> [f64; 5] {
    let given = &Given::of(map);
    let last_cell = map.count() - 1;
    let last_face = map.face_counts().len() - 1;
    let mut plan = || black_box(given).plan();
    let mut first = || black_box(given).why(black_box(0), black_box(0));
    let mut last = || black_box(given).why(black_box(last_cell), black_box(5));
    let mut first_face = || black_box(given).which(black_box(0));
    let mut last_face = || black_box(given).which(black_box(last_face));
    let all = least(&mut [
        &mut plan,
        &mut first,
        &mut last,
        &mut first_face,
        &mut last_face,
    ]);
    [all[0], all[1], all[2], all[3], all[4]].map(|time| time * 1e6)
}
