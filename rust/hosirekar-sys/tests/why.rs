//! Why a wall of a height map is there or missing, and which cap or side is behind a face's number: by hand, at the
//! limits, for numbers of what is not there, and drawn maps beside the plain way. `maps.rs` holds both calls to each
//! refusal in its order.

mod common;
use common::jobs::{HeightMap, Job, Table};
use common::samples::face;
use common::why_draws::Tally;
use common::whys::*;
use common::*;
use hosirekar_sys::*;
use std::fmt::Display;

/// Cells of these heights with nothing about them, with caps and sides.
fn cells(heights: &[f32]) -> HeightMap {
    let n = heights.len();
    let mut cells: Vec<f32> = (0..27 * n).map(|k| known(6, 7 * k)).collect();
    (0..n).for_each(|k| cells[27 * k] = heights[k]);
    HeightMap {
        job: CHeightMap {
            caps: face(true, 255),
            sides: face(true, 255),
            fringe: 1,
            ..CHeightMap::default()
        },
        cells,
        neighbours: vec![NOBODY; 6 * n],
        fringe: vec![],
        customs: vec![],
        corners: (0..12).map(|k| known(5, 7 * k)).collect(),
        table: Table::default(),
    }
}

/// Two cells, each beyond a side of the other: side 0 of the first and side 3 of the second.
fn two(heights: [f32; 2]) -> HeightMap {
    let mut map = cells(&heights);
    map.neighbours[0] = 1;
    map.neighbours[6 + 3] = 0;
    map
}

/// The same height of the fringe beyond each side that has no neighbour.
fn fringed(mut map: HeightMap, height: f32) -> HeightMap {
    map.job.fringe = 2;
    map.fringe = vec![height; map.neighbours.len()];
    map
}

const OFF: (u32, f32, usize) = (1, 0.0, 0);
const NOTHING: (u32, f32, usize) = (2, 0.0, 0);

fn as_high(height: f32) -> (u32, f32, usize) {
    (3, height, 0)
}

fn present(face: usize) -> (u32, f32, usize) {
    (4, 0.0, face)
}

/// Holds a side to its reason, with the height and the face beside it, and to the plan's counts.
#[track_caller]
fn hold_why(map: &HeightMap, cell: usize, side: usize, told: (u32, f32, usize)) {
    let wanted = CWhy {
        answer: map.plan(),
        reason: told.0,
        height: told.1,
        face: told.2,
    };
    assert_eq!(wanted.answer.number, 0, "the map is lawful");
    let why = map.why(cell, side);
    let what = format!("side {side} of cell {cell}");
    assert!(is_same_why(why, wanted), "{what}: {why:?}, not {wanted:?}");
}

/// Holds all sides that are not these to one reason.
#[track_caller]
fn hold_others(map: &HeightMap, but: &[(usize, usize)], told: (u32, f32, usize)) {
    let sides = (0..count(map)).flat_map(|cell| (0..6).map(move |side| (cell, side)));
    for (cell, side) in sides.filter(|at| !but.contains(at)) {
        hold_why(map, cell, side, told);
    }
}

/// Holds the faces of a map to these names, which are all.
#[track_caller]
fn hold_names(map: &HeightMap, names: &[Name]) {
    let answer = map.plan();
    for (number, name) in names.iter().enumerate() {
        let (kind, side, cell) = match *name {
            Name::Cap(cell) => (1, 0, cell),
            Name::Side(cell, side) => (2, side as u32, cell),
        };
        let wanted = CWhich {
            answer,
            kind,
            side,
            cell,
        };
        assert_eq!(map.which(number), wanted, "face {number}");
    }
    for number in strays(names.len()) {
        assert_eq!(map.which(number), no_which(6), "face {number}");
    }
    assert_eq!(map.faces().faces, names.len());
}

/// Numbers that are not below `end`: the next ones, the greatest, and those that fewer bits, or a product with the
/// numbers, the options or the sides of a cell, would make small.
fn strays(end: usize) -> Vec<usize> {
    let mut strays: Vec<usize> = (end..end + 13).chain([255, 1 << 63]).collect();
    for near in 0..13 {
        strays.extend([8, 16, 32, 63].map(|bits| (1 << bits) + near));
        strays.push(usize::MAX - near);
    }
    for factor in [6, 7, 24, 27] {
        let wraps = (1..factor).map(|turn: u128| (turn << 64).div_ceil(factor) as usize);
        strays.extend(wraps.flat_map(|least| [least, least + 1]));
    }
    strays.retain(|stray| *stray >= end);
    strays
}

#[track_caller]
fn hold_no_why(map: &HeightMap, cell: usize, side: usize, number: u32, what: impl Display) {
    let why = map.why(cell, side);
    let what = format!("{what}: side {side} of cell {cell}");
    assert!(is_same_why(why, no_why(number)), "{what}: {why:?}");
}

/// Holds each cell and each side that is not there to 6, or to a refusal that comes before it.
fn hold_strays(map: &HeightMap, number: u32, what: &str) {
    let (cells, sides) = (strays(count(map)), strays(6));
    for cell in &cells {
        (0..6).for_each(|side| hold_no_why(map, *cell, side, number, what));
    }
    for side in &sides {
        (0..count(map)).for_each(|cell| hold_no_why(map, cell, *side, number, what));
    }
    for (cell, side) in cells.iter().zip(&sides) {
        hold_no_why(map, *cell, *side, number, what);
    }
}

const NAMES: [Name; 3] = [Name::Cap(0), Name::Side(0, 0), Name::Cap(1)];

#[test]
fn two_cells_without_a_fringe() {
    let map = two([2.0, 1.0]);
    assert_eq!(map.plan(), done(16, 30));
    hold_names(&map, &NAMES);
    hold_why(&map, 0, 0, present(1));
    hold_why(&map, 1, 3, as_high(2.0));
    hold_others(&map, &[(0, 0), (1, 3)], NOTHING);
}

#[test]
fn sides_that_are_off() {
    let mut map = two([2.0, 1.0]);
    map.job.sides.given = false;
    for mut map in [map.clone(), fringed(map, 0.5)] {
        hold_others(&map, &[], OFF);
        hold_names(&map, &[Name::Cap(0), Name::Cap(1)]);
        map.job.caps.given = false;
        hold_others(&map, &[], OFF);
        hold_names(&map, &[]);
        hold_strays(&map, 6, "no face at all");
    }
}

#[test]
fn a_cell_side_or_face_that_is_not_there() {
    assert!(strays(6).len() > 150 && strays(2).contains(&262));
    let map = two([2.0, 1.0]);
    hold_strays(&map, 6, "two cells");
    hold_strays(&fringed(map, 0.5), 6, "a fringe");
    // A bad neighbour comes before what is not there.
    let mut astray = two([2.0, 1.0]);
    astray.neighbours[11] = 2;
    hold_strays(&astray, 3, "a neighbour astray");
    for number in [0, 1, 2, 3, 262, usize::MAX] {
        assert_eq!(astray.which(number), no_which(3), "face {number}");
    }
    hold_no_why(&astray, 0, 0, 3, "a neighbour astray");
}

#[test]
fn a_fringe_as_high_and_one_that_is_lower() {
    let high = fringed(two([2.0, 1.0]), 2.0);
    hold_names(&high, &NAMES);
    hold_why(&high, 0, 0, present(1));
    hold_others(&high, &[(0, 0)], as_high(2.0));
    let low = fringed(two([2.0, 1.0]), 0.5);
    let sides = |cell, sides: &[usize]| {
        let cap = vec![Name::Cap(cell)];
        let sides: Vec<Name> = sides.iter().map(|side| Name::Side(cell, *side)).collect();
        [cap, sides].concat()
    };
    let names = [sides(0, &[0, 1, 2, 3, 4, 5]), sides(1, &[0, 1, 2, 4, 5])];
    hold_names(&low, &names.concat());
    (0..6).for_each(|side| hold_why(&low, 0, side, present(1 + side)));
    (0..3).for_each(|side| hold_why(&low, 1, side, present(8 + side)));
    hold_why(&low, 1, 3, as_high(2.0));
    (4..6).for_each(|side| hold_why(&low, 1, side, present(7 + side)));
}

/// Each side has its own height of the fringe. That of a side with a neighbour is not looked at.
#[test]
fn the_height_of_the_fringe_is_that_of_the_side() {
    let mut map = fringed(two([2.0, 1.0]), 0.0);
    map.fringe = (0..12).map(|place| 3.0 + place as f32).collect();
    hold_why(&map, 0, 0, present(1));
    (1..6).for_each(|side| hold_why(&map, 0, side, as_high(3.0 + side as f32)));
    hold_why(&map, 1, 3, as_high(2.0));
    for side in [0, 1, 2, 4, 5] {
        hold_why(&map, 1, side, as_high(9.0 + side as f32));
    }
    // Listed, but said to be none.
    map.job.fringe = 1;
    hold_others(&map, &[(0, 0), (1, 3)], NOTHING);
}

#[test]
fn equal_heights_and_both_zeros_count_as_high() {
    let next = f32::from_bits(0x3f80_0001);
    hold_others(&two([1.0, 1.0]), &[(0, 0), (1, 3)], NOTHING);
    for [own, other] in [
        [1.0, 1.0],
        [0.0, 0.0],
        [-0.0, -0.0],
        [0.0, -0.0],
        [-0.0, 0.0],
    ] {
        let map = two([own, other]);
        hold_names(&map, &[Name::Cap(0), Name::Cap(1)]);
        hold_why(&map, 0, 0, as_high(other));
        hold_why(&map, 1, 3, as_high(own));
        let map = fringed(cells(&[own]), other);
        hold_names(&map, &[Name::Cap(0)]);
        hold_others(&map, &[], as_high(other));
    }
    for [high, low] in [[next, 1.0], [1e-45, -0.0], [-0.0, -1e-45], [1e6, -1e6]] {
        let map = two([high, low]);
        hold_why(&map, 0, 0, present(1));
        hold_why(&map, 1, 3, as_high(high));
    }
}

#[test]
fn caps_that_are_off_have_no_number() {
    let mut map = two([2.0, 1.0]);
    map.job.caps.given = false;
    hold_names(&map, &[Name::Side(0, 0)]);
    hold_why(&map, 0, 0, present(0));
    let mut map = fringed(map, 0.5);
    map.cells.swap(0, 27);
    // Five sides of the lower cell stand before the one between the two.
    hold_why(&map, 1, 3, present(5 + 3));
    assert_eq!(map.which(8).cell, 1);
    assert_eq!(map.faces().faces, 11);
}

/// Insets of single faces, of all, and of none: the numbers stay, and the counts are the plan's.
#[test]
fn options_change_no_number() {
    let plain = fringed(two([2.0, 1.0]), 0.5);
    let mut map = plain.clone();
    map.table = faults::table();
    map.job.customs = true;
    map.customs = (0..14).map(|place| [0, 255][place % 2]).collect();
    let mut insets = map.clone();
    insets.job.caps.option = 0;
    insets.job.sides.option = 0;
    assert!(plain.plan().vertices < map.plan().vertices);
    assert!(map.plan().vertices < insets.plan().vertices);
    for other in [map, insets] {
        for cell in 0..2 {
            for side in 0..6 {
                let CWhy {
                    reason,
                    height,
                    face,
                    ..
                } = plain.why(cell, side);
                hold_why(&other, cell, side, (reason, height, face));
            }
        }
        hold_names(&other, &Plain::new(&plain).names);
    }
}

#[test]
fn a_lone_cell_and_no_cell() {
    let lone = cells(&[2.0]);
    hold_others(&lone, &[], NOTHING);
    hold_names(&lone, &[Name::Cap(0)]);
    hold_strays(&lone, 6, "a lone cell");
    let none = cells(&[]);
    hold_names(&none, &[]);
    hold_strays(&none, 6, "no cell");
    hold_names(&fringed(none, 1.0), &[]);
}

/// A neighbour may be any cell: the same one, or one that has others.
#[test]
fn neighbours_that_are_not_mutual() {
    let mut map = cells(&[2.0, 1.0, 3.0]);
    map.neighbours[..6].copy_from_slice(&[0, 1, 1, 2, NOBODY, 1]);
    map.neighbours[12 + 4] = 0;
    hold_why(&map, 0, 0, as_high(2.0));
    hold_why(&map, 0, 1, present(1));
    hold_why(&map, 0, 2, present(2));
    hold_why(&map, 0, 3, as_high(3.0));
    hold_why(&map, 0, 4, NOTHING);
    hold_why(&map, 0, 5, present(3));
    (0..6).for_each(|side| hold_why(&map, 1, side, NOTHING));
    hold_why(&map, 2, 4, present(6));
    let [a, b, c] = [1, 2, 5].map(|side| Name::Side(0, side));
    let caps = [Name::Cap(0), Name::Cap(1), Name::Cap(2)];
    hold_names(
        &map,
        &[caps[0], a, b, c, caps[1], caps[2], Name::Side(2, 4)],
    );
}

/// So many cells of height 1, with walls down to 0 at the first so many sides.
fn walled(count: usize, walls: usize) -> HeightMap {
    let mut map = fringed(cells(&vec![1.0; count]), 1.0);
    map.job.caps.given = false;
    map.fringe[..walls].fill(0.0);
    map
}

#[test]
fn as_many_as_can_be() {
    // Four vertices a wall.
    let full = walled(2_731, 16_384);
    assert_eq!(full.plan(), done(65_536, 98_304));
    hold_why(&full, 2_730, 3, present(16_383));
    hold_why(&full, 2_730, 4, as_high(1.0));
    hold_no_why(&full, 2_731, 0, 6, "full");
    let last = full.which(16_383);
    assert_eq!((last.kind, last.side, last.cell), (2, 3, 2_730));
    assert_eq!(full.which(16_384), no_which(6));
    let mut bare = walled(65_536, 0);
    hold_why(&bare, 65_535, 5, as_high(1.0));
    assert_eq!(bare.which(0), no_which(6));
    *bare.fringe.last_mut().unwrap() = 0.0;
    hold_why(&bare, 65_535, 5, present(0));
    let last = bare.which(0);
    assert_eq!((last.kind, last.side, last.cell), (2, 5, 65_535));
    for cell in [65_536, 65_537, 1 << 32, (1 << 32) + 65_535, usize::MAX] {
        hold_no_why(&bare, cell, 5, 6, "65,536 cells");
    }
    hold_no_why(&walled(65_537, 0), 0, 0, 1, "65,537 cells");
}

/// Too many vertices are refused though an answer could be given, and before a cell, side or face that is not there.
#[test]
fn one_more() {
    let many = walled(2_731, 16_385);
    for (cell, side) in [
        (0, 0),
        (2_730, 4),
        (2_730, 5),
        (2_731, 0),
        (0, 6),
        (usize::MAX, 6),
    ] {
        hold_no_why(&many, cell, side, 4, "16,385 walls");
    }
    for number in [0, 16_383, 16_384, 16_385, usize::MAX] {
        assert_eq!(many.which(number), no_which(4), "face {number}");
    }
    // The sides of so many caps are off or have nothing beyond.
    let mut caps = cells(&vec![1.0; 10_923]);
    for sides in [true, false] {
        caps.job.sides.given = sides;
        hold_no_why(&caps, 0, 0, 4, "10,923 caps");
        hold_no_why(&caps, 10_923, 0, 4, "10,923 caps");
        assert_eq!(caps.which(0), no_which(4));
    }
}

/// Each number of the order with all later faults beside it, in a map of too many caps.
#[test]
fn the_first_fault_counts() {
    let mut map = cells(&vec![1.0; 10_923]);
    hold_refused(&map, 4);
    map.neighbours[5] = 10_923;
    hold_refused(&map, 3);
    map.cells[26] = f32::NAN;
    hold_refused(&map, 2);
    map.corners.pop();
    hold_refused(&map, 1);
    map.corners.push(0.0);
    for mark in [0, 3, 255] {
        map.job.fringe = mark;
        hold_refused(&map, 1);
    }
}

/// Holds sides and faces of that map, there or not, to a refusal.
fn hold_refused(map: &HeightMap, number: u32) {
    for (cell, side) in [(0, 0), (0, 6), (10_923, 0), (usize::MAX, usize::MAX)] {
        hold_no_why(map, cell, side, number, number);
    }
    for face in [0, 10_923, usize::MAX] {
        assert_eq!(map.which(face), no_which(number), "face {face}");
    }
}

/// The example `drawn_why` runs more of them.
#[test]
fn drawn_maps() {
    let tally = Tally::run(4_000, 1);
    assert_eq!((&tally.first, tally.differ), (&None, 0), "{tally}");
    assert!(tally.reasons.iter().all(|times| *times > 9_000), "{tally}");
    assert!(tally.kinds.iter().all(|times| *times > 4_000), "{tally}");
    assert!(tally.met.iter().all(|times| *times > 2_000), "{tally}");
    let is_met = |number| tally.refused.get(number) > Some(&100);
    assert!([1, 2, 3, 4, 6].iter().all(is_met), "{tally}");
}
