//! Height maps as recorded cases, and how great they are.

use crate::MeshInfo;
use crate::job_runs::Case;
use crate::job_words::Lines;
use crate::map_steps::{OVER_HEXX, WRITTEN, faces, joined, range, whole};
use crate::map_words::MapJob;
use crate::maps::{Map, NUMBERS};
use crate::steps::Mesh;

impl Case<MapJob> {
    /// A map that is done. Its mesh is hexx's, which must be that of the written
    /// steps; where there is a turn, or where heights of both zeros may give a
    /// range another sign, it is that of the steps over hexx's faces.
    #[must_use]
    pub fn map(map: &Map) -> Self {
        let written = faces(&OVER_HEXX, map, range(&OVER_HEXX, map));
        let mesh = MeshInfo::from(&joined(&written));
        assert_same(&mesh, &whole(&WRITTEN, map));
        if map.turn.is_none() && !has_both_zeros(map) {
            assert_same(&mesh, &Mesh::from(&map.hexx()));
        }
        let counts = |face: &Mesh| [face.positions.len(), face.indices.len()];
        let job = MapJob::from(map);
        assert_eq!(job.fault(), None);
        let case = Self::done(job, written.iter().map(counts).collect(), &mesh);
        assert_eq!(case.exact()[3], case.job.counts()[1]);
        case
    }
}

/// Whether heights are zeros of both signs.
#[must_use]
pub fn has_both_zeros(map: &Map) -> bool {
    let has = |zero: f32| {
        let mut heights = map.cells.iter().step_by(NUMBERS);
        heights.any(|height| height.to_bits() == zero.to_bits())
    };
    has(0.0) && has(-0.0)
}

fn assert_same(whole: &MeshInfo, other: &Mesh) {
    let other = MeshInfo::from(other);
    let lists = |mesh: &MeshInfo| crate::digest::Lists::of(mesh).0;
    assert_eq!(lists(whole), lists(&other), "hexx and the steps differ");
}

/// What a program that replays maps must have room for: the greatest of each
/// sort, and the case that has it.
#[derive(Debug, Default)]
pub struct Greatest(Vec<(&'static str, usize, usize)>);

/// The lists of a map in the order of its words.
const LISTS: [&str; 7] = [
    "cells",
    "neighbours",
    "fringe",
    "customs",
    "corners",
    "numbers",
    "marks",
];

/// What a run lends, and how many calls it has.
const LENT: [&str; 5] = [
    "vertices lent",
    "normals lent",
    "uvs lent",
    "indices lent",
    "calls of a run",
];

impl Greatest {
    /// Of all these cases.
    #[must_use]
    pub fn of(cases: &[Lines]) -> Self {
        let mut all = Self::default();
        for (at, case) in cases.iter().enumerate() {
            all.add(at, case);
        }
        all
    }

    /// A case: its lengths, its seven lists, the rest, the count of its runs,
    /// and those.
    fn add(&mut self, at: usize, case: &Lines) {
        for (name, &length) in LISTS.iter().zip(&case[0]) {
            self.note(name, length as usize, at);
        }
        self.note("runs of a case", case[9][0] as usize, at);
        for run in &case[10..] {
            for (name, &length) in LENT.iter().zip(run) {
                self.note(name, length as usize, at);
            }
        }
        self.note("words of a case", case.iter().flatten().count() + 1, at);
    }

    fn note(&mut self, name: &'static str, size: usize, at: usize) {
        match self.0.iter_mut().find(|entry| entry.0 == name) {
            Some(entry) if entry.1 < size => (entry.1, entry.2) = (size, at),
            Some(_) => (),
            None => self.0.push((name, size, at)),
        }
    }
}

impl std::fmt::Display for Greatest {
    fn fmt(&self, f: &mut std::fmt::Formatter<'_>) -> std::fmt::Result {
        for (name, size, at) in &self.0 {
            writeln!(f, "{name}: at most {size}, first in case {at}")?;
        }
        Ok(())
    }
}
