//! Drawn height maps.

use crate::FaceOptions;
use crate::builder_cases::{
    Size, corners, draw, drawn_choice, drawn_size, point, quaternion, table, three,
};
use crate::builders::Choice;
use crate::map_grounds::{Axial, Layout, linked, patch};
use crate::maps::{Map, NOBODY, NUMBERS, OWN, Turn};
use crate::numbers::{ENDS, number, within};
use crate::random::Random;
use crate::shapes::RANGES;
use glam::{Vec2, vec2};

/// How many cells a map has.
const COUNTS: [usize; 14] = [0, 1, 1, 2, 2, 3, 3, 4, 5, 6, 7, 7, 12, 19];

/// How the heights of a map are drawn.
#[derive(Clone, Copy)]
enum Heights {
    /// From a few whole numbers, so that many are equal.
    Steps,
    /// From both zeros and a few others.
    Zeros,
    /// Each by itself, of the size of the job.
    Each,
    /// All the same.
    Same(f32),
}

/// A drawn map, moderate two times of three.
pub fn drawn_map(random: &mut Random, turned: bool) -> Map {
    let count = random.pick(&COUNTS);
    drawn_map_of(random, count, turned)
}

/// A drawn map of so many cells.
pub fn drawn_map_of(random: &mut Random, count: usize, turned: bool) -> Map {
    let size = drawn_size(random);
    let kind = heights_of(random, size);
    let heights: Vec<f32> = (0..count).map(|_| height(random, size, kind)).collect();
    let ground = match random.once_in(2) {
        true => laid_out(random, size, &heights),
        false => astray(random, size, &heights),
    };
    let mut options = table(random, size);
    if random.once_in(4) {
        options
            .iter_mut()
            .for_each(|option| keep_zeros(option, random));
    }
    let fringe = (0..6 * count).map(|_| height(random, size, kind)).collect();
    let customs = customs(random, count, &options);
    let scale = three(random, size, 4.0);
    let offset = three(random, size, 100.0);
    Map {
        fringe: random.once_in(2).then_some(fringe),
        customs: random.once_in(2).then_some(customs),
        caps: choice(random, &options),
        sides: choice(random, &options),
        range: range(random, size),
        scale: random.once_in(2).then_some(scale),
        turn: turned.then(|| turn(random)),
        offset: random.once_in(2).then_some(offset),
        options,
        ..ground
    }
}

/// A drawn map of so many cells whose range begins or ends with a zero, with
/// heights of either sign, and whose sides show which one.
pub fn drawn_zeros(random: &mut Random, count: usize) -> Map {
    let mut map = drawn_map_of(random, count, false);
    for cell in map.cells.chunks_mut(NUMBERS) {
        cell[0] = random.pick(&[0.0, -0.0, 1.0]);
    }
    let beyond = |_| random.pick(&[-0.0, -1.0]);
    let fringe = (0..6 * count).map(beyond).collect();
    let mut option = FaceOptions::new();
    keep_zeros(&mut option, random);
    Map {
        fringe: Some(fringe),
        customs: None,
        options: vec![option],
        caps: Choice::Default,
        sides: Choice::Entry(0),
        range: None,
        ..map
    }
}

/// Lets the sign of a v that is 0 show.
fn keep_zeros(option: &mut FaceOptions, random: &mut Random) {
    let uv = &mut option.uv;
    uv.scale_factor.y = random.pick(&[1.0, -1.0]);
    (uv.offset.y, uv.rect.min.y) = (-0.0, -0.0);
    uv.rect.max.y = random.pick(&[1.0, -2.0]);
    uv.flip.y = false;
}

fn heights_of(random: &mut Random, size: Size) -> Heights {
    match random.below(6) {
        0 | 1 => Heights::Steps,
        2 => Heights::Zeros,
        3 => Heights::Same(draw(random, size, 20.0)),
        _ => Heights::Each,
    }
}

fn height(random: &mut Random, size: Size, kind: Heights) -> f32 {
    match kind {
        Heights::Steps => random.below(4) as f32 - 1.0,
        Heights::Zeros => random.pick(&[0.0, -0.0, 0.0, -0.0, 1.0, -1.0]),
        Heights::Same(height) if !random.once_in(8) => height,
        Heights::Same(_) | Heights::Each => draw(random, size, 20.0),
    }
}

/// Cells as a layout puts them, in any order and with holes among them.
fn laid_out(random: &mut Random, size: Size, heights: &[f32]) -> Map {
    let origin = match random.below(4) {
        0 => Vec2::ZERO,
        1 => vec2(-0.0, random.pick(&ENDS)),
        _ => point(random, size, 100.0),
    };
    let layout = Layout {
        pointy: random.once_in(2),
        by: vec2(within(random, 20.0), within(random, 20.0)),
        origin,
    };
    let mut map = layout.map(&some_of(random, heights.len()), heights);
    if random.once_in(3) {
        map.origin = None;
    }
    // Great origins and small sizes can pass the limit together.
    map.cells.iter_mut().for_each(|x| *x = x.clamp(-1e6, 1e6));
    map
}

/// So many hexes of a patch in any order.
fn some_of(random: &mut Random, count: usize) -> Vec<Axial> {
    let radius = (0..).find(|radius| 3 * radius * (radius + 1) + 1 >= count);
    let radius = radius.unwrap_or_default() as i32;
    let mut hexes = patch(radius + random.below(2) as i32);
    for at in (1..hexes.len()).rev() {
        hexes.swap(at, random.below(at as u32 + 1) as usize);
    }
    hexes.truncate(count);
    hexes
}

/// Cells anywhere, linked anyhow: to themselves, and to one side only.
fn astray(random: &mut Random, size: Size, heights: &[f32]) -> Map {
    let corners = corners(random, size);
    let count = heights.len() as u32;
    let near = |random: &mut Random| match random.below(4) {
        0 => NOBODY,
        _ => random.below(count),
    };
    let cells: Vec<(f32, Vec2)> = heights
        .iter()
        .map(|&height| (height, spot(random, size)))
        .collect();
    let neighbours: Vec<u32> = (0..6 * count).map(|_| near(random)).collect();
    let mut map = linked(corners, &cells, &neighbours);
    if size == Size::Any {
        let ends = (0..map.cells.len()).filter(|at| at % 27 > 2);
        for at in ends.collect::<Vec<_>>() {
            if random.once_in(2) {
                map.cells[at] = number(random);
            }
        }
    }
    map.cells.iter_mut().for_each(|x| *x = x.clamp(-1e6, 1e6));
    let origin = spot(random, size);
    map.origin = random.once_in(2).then_some(origin);
    map
}

/// A point, or zeros of either sign.
fn spot(random: &mut Random, size: Size) -> Vec2 {
    match random.below(4) {
        0 => vec2(random.pick(&[0.0, -0.0]), random.pick(&[0.0, -0.0])),
        _ => point(random, size, 100.0),
    }
}

/// The job's own options, and entries of the table if it has any.
fn customs(random: &mut Random, count: usize, options: &[FaceOptions]) -> Vec<u8> {
    let entries = options.len() as u32;
    let custom = |_| match entries == 0 || random.once_in(2) {
        true => OWN,
        false => random.below(entries) as u8,
    };
    (0..7 * count).map(custom).collect()
}

fn choice(random: &mut Random, options: &[FaceOptions]) -> Choice {
    match random.once_in(6) {
        true => Choice::Absent,
        false => drawn_choice(random, options.len()),
    }
}

fn range(random: &mut Random, size: Size) -> Option<[f32; 2]> {
    match random.below(4) {
        0 | 1 => None,
        2 => Some(random.pick(&RANGES)),
        _ => Some([draw(random, size, 20.0), draw(random, size, 20.0)]),
    }
}

/// As a quaternion turns, which hexx can be asked for too.
fn turn(random: &mut Random) -> Turn {
    Turn::By(quaternion(random))
}
