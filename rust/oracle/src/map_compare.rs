//! Drawn height maps, small and great, held to hexx's: the plan, the build,
//! short buffers, and single faces in any order with refused calls between;
//! and the safe crate's calls on the same maps.

use crate::MeshInfo;
use crate::compare::{Tally, Trial, order};
use crate::distance::{Greatest, MODERATE};
use crate::limits::{VERTICES, alone, refused_everywhere};
use crate::map_draws::{drawn_map_of, drawn_zeros};
use crate::map_steps::{OVER_HEXX, magnitude, range};
use crate::map_zeros::{Zeros, other_ends, wanted};
use crate::maps::{Map, Turn};
use crate::numbers::number;
use crate::ours::Job;
use crate::random::Random;
use crate::safe::Safe;
use crate::safe_calls;
use glam::vec3;

/// The most cells of a small map.
const SMALL: u32 = 40;

/// How many faces of a great map are called where not all are.
const SOME: usize = 32;

/// Of so many drawn maps the safe crate is asked for the faces of one.
const SHARE: u64 = 4;

/// What drawn maps came to.
#[derive(Debug)]
pub struct Maps {
    pub tally: Tally,
    pub cells: usize,
    pub vertices: usize,
    /// Maps whose heights hold both zeros, with no range given.
    pub both_zeros: usize,
    /// Of these, those where the sign of an end shows in the mesh.
    pub telling: usize,
    /// Of these, those where it is another in hexx: the one difference that is
    /// allowed.
    pub other_zero: usize,
    /// Refused for their vertices; hexx is not asked.
    pub too_many: usize,
    /// Maps whose faces the safe crate is asked for, and so many windows.
    pub told: usize,
    pub windows: usize,
    /// How far maps turned by a quaternion are from hexx's, and great ones.
    pub distances: [Greatest; 2],
}

impl Maps {
    const fn new() -> Self {
        Self {
            tally: Tally::NONE,
            cells: 0,
            vertices: 0,
            both_zeros: 0,
            telling: 0,
            other_zero: 0,
            too_many: 0,
            told: 0,
            windows: 0,
            distances: [Greatest::NONE, Greatest::NONE],
        }
    }

    /// Counts the faces in that the safe crate is asked for.
    fn ask(&mut self, faces: &[usize]) {
        self.told += 1;
        self.windows += faces.len();
    }

    /// Counts a map in.
    fn add(&mut self, map: &Map, trial: &Trial, found: Result<(), String>) {
        self.cells += map.count();
        self.vertices += trial.mesh.vertices.len();
        self.note(map);
        self.measure(map, &trial.mesh);
        let found = found.map_err(|what| format!("{what}\n{map:?}"));
        self.tally.add(found);
    }

    /// Counts how far a mesh with a turn is from hexx's. The range is given,
    /// since hexx may have another sign of a zero end.
    fn measure(&mut self, map: &Map, mesh: &MeshInfo) {
        if let Some(Turn::By(_)) = map.turn {
            let range = Some(range(&OVER_HEXX, map));
            let map = Map {
                range,
                ..map.clone()
            };
            let most = magnitude(&map);
            self.distances[usize::from(most > MODERATE)].add(&map.hexx(), mesh, most);
        }
    }

    /// Counts what zeros show.
    fn note(&mut self, map: &Map) {
        if map.turn.is_some() || other_ends(map).next().is_none() {
            return;
        }
        let zeros = wanted(map).1;
        self.both_zeros += 1;
        self.telling += usize::from(matches!(zeros, Zeros::Same | Zeros::Other));
        self.other_zero += usize::from(zeros == Zeros::Other);
    }
}

impl std::fmt::Display for Maps {
    fn fmt(&self, f: &mut std::fmt::Formatter<'_>) -> std::fmt::Result {
        write!(f, "  {} cells, {} vertices", self.cells, self.vertices)?;
        if self.too_many > 0 {
            let many = self.too_many;
            write!(f, "; refused for their vertices {many}")?;
        }
        let [told, windows] = [self.told, self.windows];
        write!(f, "; the safe crate tells {windows} windows of {told} maps")?;
        if self.both_zeros > 0 {
            let [both, telling, other] = [self.both_zeros, self.telling, self.other_zero];
            write!(
                f,
                "\n  heights of both zeros {both}, where the sign of an end shows {telling}, \
                 and is another in hexx {other}"
            )?;
        }
        let [moderate, great] = &self.distances;
        match moderate.jobs + great.jobs {
            0 => Ok(()),
            _ => write!(
                f,
                "\n  from hexx, up to {MODERATE}: {moderate}\n  from hexx, beyond: {great}"
            ),
        }
    }
}

/// Some maps, as they are given.
#[must_use]
pub fn given(maps: &[Map], random: &mut Random) -> Maps {
    let mut all = Maps::new();
    for map in maps {
        one(&mut all, map, 1, random);
    }
    all
}

/// A map; the safe crate is asked for the faces of one of `each`.
fn one(all: &mut Maps, map: &Map, each: u64, random: &mut Random) {
    let trial = Trial::new(map, random);
    let mut found = trial.all(random).and_then(|()| safe_build(map, &trial));
    if all.tally.tried.is_multiple_of(each) {
        let backwards: Vec<usize> = (0..trial.faces()).rev().collect();
        all.ask(&backwards);
        found = found.and_then(|()| safe_faces(map, &trial, &backwards));
    }
    all.add(map, &trial, found);
}

fn safe_build(map: &Map, trial: &Trial) -> Result<(), String> {
    safe_calls::whole(&map.safe(), &trial.mesh)
}

/// What the safe crate tells and builds of these faces, the cells copied once.
fn safe_faces(map: &Map, trial: &Trial, faces: &[usize]) -> Result<(), String> {
    let safe = map.safe();
    safe_calls::parts(&safe.ready(), trial, faces)
}

/// Refused with this number, by the safe crate too. That a cell has neighbours
/// too few is nothing that it can be told.
pub fn refused_map(map: &Map, number: u32) -> Result<(), String> {
    refused_everywhere(map, number)?;
    if map.neighbours.len() != 6 * map.count() {
        return Ok(());
    }
    let safe = map.safe();
    safe_calls::refused(&safe.ready(), number)
}

/// Drawn maps of at most 40 cells.
#[must_use]
pub fn small(count: u64, turned: bool, random: &mut Random) -> Maps {
    let mut all = Maps::new();
    for _ in 0..count {
        let cells = match random.once_in(2) {
            true => random.below(8),
            false => random.below(SMALL + 1),
        };
        let mut map = drawn_map_of(random, cells as usize, turned);
        if turned && random.once_in(4) {
            map.turn = Some(any_nine(random));
        }
        one(&mut all, &map, SHARE, random);
    }
    all
}

/// Drawn maps of at most 24 cells in which the sign of a zero end shows.
#[must_use]
pub fn of_zeros(count: u64, random: &mut Random) -> Maps {
    let mut all = Maps::new();
    for _ in 0..count {
        let cells = random.below(25) as usize;
        one(&mut all, &drawn_zeros(random, cells), SHARE, random);
    }
    all
}

/// Nine numbers that turn nothing in any sense.
fn any_nine(random: &mut Random) -> Turn {
    Turn::Rows([(); 3].map(|()| vec3(number(random), number(random), number(random))))
}

/// Drawn maps of 1,000 to 5,000 cells; too many vertices are refused.
#[must_use]
pub fn great(count: u64, long: bool, random: &mut Random) -> Maps {
    let mut all = Maps::new();
    while all.tally.tried < count + all.too_many as u64 {
        let cells = 1000 + random.below(4001) as usize;
        let map = drawn_map_of(random, cells, false);
        let vertices: usize = map.face_counts().iter().map(|face| face.vertices).sum();
        if vertices > VERTICES {
            all.too_many += 1;
            all.tally.add(refused_map(&map, 4));
            continue;
        }
        let trial = Trial::new(&map, random);
        all.ask(&spread(&trial));
        let found = parts(&map, &trial, long, random);
        all.add(&map, &trial, found);
    }
    all
}

/// The last face, the first and some between.
fn spread(trial: &Trial) -> Vec<usize> {
    let faces = trial.faces();
    let step = faces.div_ceil(SOME);
    let is_one = |face: &usize| face.is_multiple_of(step) || face + 1 == faces;
    (0..faces).rev().filter(is_one).collect()
}

/// All but the order of all faces, with the safe crate's calls: single faces
/// alone, and some in any order; where it is `long`, once in 16 times all.
pub fn parts(map: &Map, trial: &Trial, long: bool, random: &mut Random) -> Result<(), String> {
    trial.plan()?;
    trial.whole()?;
    safe_build(map, trial)?;
    safe_faces(map, trial, &spread(trial))?;
    trial.short(random)?;
    alone(trial, random)?;
    if trial.faces() == 0 {
        return Ok(());
    }
    let some: Vec<usize> = (0..SOME).map(|_| trial.some_face(random)).collect();
    trial.in_order(&some, true, 2, random)?;
    match long && random.once_in(16) {
        // A fault needs a copy of all lists.
        true => trial.in_order(&order(trial.faces(), random), false, 256, random),
        false => Ok(()),
    }
}
