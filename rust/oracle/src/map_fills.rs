//! Height maps with as many cells as can be numbered, in every way of switching
//! caps, sides, insets, fringe and customs, and those with a cell more.

use crate::builders::Choice;
use crate::cases::{inset, options};
use crate::compare::{Tally, Trial};
use crate::limits::VERTICES;
use crate::map_compare::{parts, refused_map};
use crate::map_limits::{Limit, bare, limits};
use crate::maps::{Map, NOBODY, NUMBERS, OWN};
use crate::ours::Job;
use crate::random::Random;
use crate::{FaceOptions, InsetScaleMode, UVOptions};
use glam::{vec2, vec3};

/// The most cells of a map.
const CELLS: usize = 65_536;

/// What was tried.
#[derive(Debug, Default)]
pub struct Fills {
    pub taken: Tally,
    pub refused: Tally,
    /// Whether all faces of some are called.
    long: bool,
    /// How many have exactly as many vertices as can be numbered.
    pub exact: usize,
}

/// How the heights beyond the edge are given.
#[derive(Debug, Clone, Copy)]
enum Fringe {
    None,
    /// Below all cells, so that sides stand on it.
    Low,
    /// Above all cells.
    High,
    /// Low and high by turns.
    Mixed,
}

/// The ways in which caps or sides are switched.
const CHOICES: [Choice; 4] = [
    Choice::Absent,
    Choice::Default,
    Choice::Entry(0),
    Choice::Entry(1),
];

/// How many ways there are: of caps, sides, fringe, customs and links.
const WAYS: usize = 4 * 4 * 4 * 2 * 2;

/// Every `step`th way, and the maps at the limit by name.
#[must_use]
pub fn all(step: usize, random: &mut Random) -> Fills {
    let mut fills = Fills {
        long: step == 1,
        ..Fills::default()
    };
    for limit in limits() {
        named(&mut fills, &limit, random);
    }
    for number in (0..WAYS).step_by(step) {
        way(&mut fills, number, random);
    }
    fills
}

fn named(fills: &mut Fills, limit: &Limit, random: &mut Random) {
    if limit.number > 0 {
        let found = refused_map(&limit.map, limit.number);
        return fills.refused.add(found);
    }
    taken(fills, &limit.map, random);
}

fn taken(fills: &mut Fills, map: &Map, random: &mut Random) {
    let trial = Trial::new(map, random);
    let vertices = trial.mesh.vertices.len();
    fills.exact += usize::from(vertices == VERTICES);
    let found = parts(map, &trial, fills.long, random);
    let name = || (map.count(), map.caps, map.sides, map.customs.is_some());
    fills
        .taken
        .add(found.map_err(|what| format!("{what}\n{:?}", name())));
}

/// The greatest map of a way, the greatest with some sides of one cell more,
/// and those with a cell more, two more and as many again.
fn way(fills: &mut Fills, number: usize, random: &mut Random) {
    let map = ground(number);
    let cells = fitting(&map);
    taken(fills, &first(&map, cells), random);
    if cells == CELLS {
        let more = first(&map, cells + 1);
        return fills.refused.add(refused_map(&more, 1));
    }
    if let Some(full) = filled(first(&map, cells + 1)) {
        taken(fills, &full, random);
    }
    for more in [cells + 1, cells + 2, 2 * cells] {
        let more = first(&map, more.min(CELLS));
        fills.refused.add(refused_map(&more, 4));
    }
}

/// How many of its cells a map may have at most. A cell is linked to earlier
/// ones alone, so that the first ones have the same faces without the rest.
fn fitting(map: &Map) -> usize {
    let of_cell = |cell| map.counts_of(cell).map(|face| face.vertices).sum::<usize>();
    let sums = (0..CELLS).scan(0, |sum, cell| {
        *sum += of_cell(cell);
        Some(*sum)
    });
    sums.take_while(|&sum| sum <= VERTICES).count()
}

/// The first cells of a map.
fn first(map: &Map, cells: usize) -> Map {
    let fringe = map.fringe.as_ref().map(|list| list[..6 * cells].to_vec());
    let customs = map.customs.as_ref().map(|list| list[..7 * cells].to_vec());
    Map {
        cells: map.cells[..NUMBERS * cells].to_vec(),
        neighbours: map.neighbours[..6 * cells].to_vec(),
        fringe,
        customs,
        corners: map.corners,
        options: map.options.clone(),
        ..*map
    }
}

/// With sides of the last cell shut one by one until the rest fits, if it does.
fn filled(mut map: Map) -> Option<Map> {
    let last = map.neighbours.len() - 6;
    for side in last..last + 6 {
        // A cell beside itself is as high, so that no side stands there.
        map.neighbours[side] = (last / 6) as u32;
        let faces = map.face_counts();
        let vertices: usize = faces.iter().map(|face| face.vertices).sum();
        if vertices <= VERTICES {
            return Some(map);
        }
    }
    None
}

/// Two insets, of which one is kept.
fn table() -> Vec<FaceOptions> {
    let centroid = inset(InsetScaleMode::Centroid, 0.3, false);
    let edge = inset(InsetScaleMode::SmallestEdge, -0.2, true);
    vec![
        options(UVOptions::new(), Some(centroid)),
        options(UVOptions::new(), Some(edge)),
        options(UVOptions::new(), None),
    ]
}

/// The ground of a way, with a cell more than any map may have.
fn ground(number: usize) -> Map {
    let (caps, sides) = (CHOICES[number % 4], CHOICES[number / 4 % 4]);
    let fringe = [Fringe::None, Fringe::Low, Fringe::High, Fringe::Mixed][number / 16 % 4];
    let (customised, is_linked) = (number / 64 % 2 == 1, number / 128 == 1);
    let mut map = bare(CELLS + 1);
    let count = map.count();
    if is_linked {
        (0..6 * count).for_each(|at| map.neighbours[at] = earlier(at / 6, at % 6));
    }
    let custom = |at: usize| [OWN, 0, OWN, 1, 2][at % 5];
    Map {
        caps,
        sides,
        fringe: heights(fringe, 6 * count),
        customs: customised.then(|| (0..7 * count).map(custom).collect()),
        options: table(),
        scale: number.is_multiple_of(5).then_some(vec3(1.5, 0.7, -2.1)),
        offset: number.is_multiple_of(3).then_some(vec3(0.1, -3.3, 1e-3)),
        origin: number.is_multiple_of(2).then_some(vec2(17.3, -4.25)),
        ..map
    }
}

/// A cell before this one, or none.
fn earlier(cell: usize, side: usize) -> u32 {
    let back = 1 + 5 * side;
    match cell < back || (cell + side).is_multiple_of(4) {
        true => NOBODY,
        false => (cell - back) as u32,
    }
}

/// Heights beyond the edge; those of cells are from 1 to 5.
fn heights(fringe: Fringe, count: usize) -> Option<Vec<f32>> {
    let height = |at: usize| match fringe {
        Fringe::Low => Some(0.5),
        Fringe::High => Some(8.0),
        Fringe::Mixed => Some(if at.is_multiple_of(2) { 0.25 } else { 6.0 }),
        Fringe::None => None,
    };
    (0..count).map(height).collect()
}
