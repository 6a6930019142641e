//! Height maps with as many vertices, cells or options as can be, or nearly,
//! and those with one more.

use crate::builders::Choice;
use crate::cases::{MODES, inset, options};
use crate::map_grounds::empty;
use crate::maps::{Map, NOBODY};
use crate::shapes::stretched;
use crate::{FaceOptions, UVOptions};
use glam::{Vec2, vec2};

/// A map, the number that every call on it answers, and the counts of its plan
/// where that is 0.
#[derive(Debug, Clone)]
pub struct Limit {
    pub name: &'static str,
    pub map: Map,
    pub number: u32,
    pub vertices: usize,
    pub indices: usize,
}

fn done(name: &'static str, map: Map, [vertices, indices]: [usize; 2]) -> Limit {
    Limit {
        name,
        map,
        number: 0,
        vertices,
        indices,
    }
}

fn refused(name: &'static str, map: Map, number: u32) -> Limit {
    Limit {
        number,
        ..done(name, map, [0; 2])
    }
}

/// All of them.
#[must_use]
pub fn limits() -> Vec<Limit> {
    let mut all = vec![
        done("10,922 caps", caps(10_922), [65_532, 131_064]),
        refused("10,923 caps", caps(10_923), 4),
        done("16,384 walls", walls(16_384), [65_536, 98_304]),
        refused("16,385 walls", walls(16_385), 4),
        done("65,536 cells, all off", bare(65_536), [0, 0]),
        refused("65,537 cells, all off", bare(65_537), 1),
        done("10,922 caps and a wall", capped(1), [65_536, 131_070]),
        refused("10,922 caps and two walls", capped(2), 4),
    ];
    all.extend(insets());
    all.extend(before_the_limit());
    all
}

/// Inset caps and walls, kept or not.
fn insets() -> Vec<Limit> {
    vec![
        done(
            "5,461 inset caps",
            with_inset(caps(5461), false),
            [65_532, 196_596],
        ),
        done(
            "5,461 inset caps, kept",
            with_inset(caps(5461), true),
            [65_532, 262_128],
        ),
        refused("5,462 inset caps", with_inset(caps(5462), false), 4),
        done(
            "8,192 inset walls, kept",
            with_inset(walls(8192), true),
            [65_536, 245_760],
        ),
        refused("8,193 inset walls", with_inset(walls(8193), true), 4),
    ]
}

/// Other faults of maps that have too many vertices or cells.
fn before_the_limit() -> Vec<Limit> {
    let mut strayed = caps(10_923);
    strayed.neighbours[0] = 10_923;
    let mut beyond = strayed.clone();
    beyond.cells[27 * 10_922] = f32::NAN;
    let mut short = beyond.clone();
    short.neighbours.pop();
    let mut cells = bare(65_537);
    cells.cells[0] = f32::INFINITY;
    cells.neighbours[0] = NOBODY - 1;
    vec![
        refused("10,923 caps, a neighbour astray", strayed, 3),
        refused("the same, a height that is NaN", beyond, 2),
        refused("the same, a neighbour too few", short, 1),
        refused("65,537 cells, out of range and astray", cells, 1),
    ]
}

fn corners() -> [Vec2; 6] {
    stretched(true, vec2(1.0, 1.0))
}

/// So many cells in rows of 256, none linked, caps and sides off.
#[must_use]
pub fn bare(count: usize) -> Map {
    let corners = corners();
    let mut map = Map {
        caps: Choice::Absent,
        sides: Choice::Absent,
        neighbours: vec![NOBODY; 6 * count],
        ..empty(corners)
    };
    for cell in 0..count {
        let at = vec2(2.0 * (cell % 256) as f32, 2.0 * (cell / 256) as f32);
        map.cells
            .extend([1.0 + (cell % 17) as f32 * 0.25, at.x, at.y]);
        for side in 0..6 {
            let ends = [corners[side], corners[(side + 1) % 6]];
            map.cells
                .extend(ends.map(|end| at + end).iter().flat_map(Vec2::to_array));
        }
    }
    map
}

/// So many cells with caps alone.
#[must_use]
pub fn caps(count: usize) -> Map {
    Map {
        caps: Choice::Default,
        ..bare(count)
    }
}

/// So many walls and no caps: each stands on a fringe of 0, and the sides of
/// the last cell that are too many on one above it.
#[must_use]
pub fn walls(count: usize) -> Map {
    let cells = count.div_ceil(6);
    let fringe = |at: usize| if at < count { 0.0 } else { 10.0 };
    Map {
        sides: Choice::Default,
        fringe: Some((0..6 * cells).map(fringe).collect()),
        ..bare(cells)
    }
}

/// 10,922 caps, and so many walls on the last of the cells.
#[must_use]
pub fn capped(walls: usize) -> Map {
    let map = caps(10_922);
    let mut fringe = vec![10.0; map.neighbours.len()];
    let first = fringe.len() - walls;
    fringe[first..].fill(0.0);
    Map {
        sides: Choice::Default,
        fringe: Some(fringe),
        ..map
    }
}

/// So many cells by the rule that `replay_maps` has too: the height of cell 0 is
/// 0, all other numbers are 1, and across every side is cell 0. So each cell but
/// that one has six walls; they and the caps are inset.
#[must_use]
pub fn stepped(count: usize, kept: bool) -> Map {
    let mut cells = vec![1.0; 27 * count];
    cells[0] = 0.0;
    let map = Map {
        cells,
        neighbours: vec![0; 6 * count],
        ..empty(corners())
    };
    with_inset(map, kept)
}

/// With caps and sides that are there of an inset option.
#[must_use]
pub fn with_inset(map: Map, kept: bool) -> Map {
    let inset = inset(MODES[usize::from(kept)], 0.25, kept);
    let option: FaceOptions = options(UVOptions::new(), Some(inset));
    let there = |choice: Choice| match choice {
        Choice::Absent => Choice::Absent,
        _ => Choice::Entry(0),
    };
    Map {
        caps: there(map.caps),
        sides: there(map.sides),
        options: vec![option],
        ..map
    }
}
