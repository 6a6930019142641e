//! The cases of planes and columns: lists that are gone through in turn, and
//! then drawn ones up to a fixed count. Those with a turn or a bottom stand
//! apart, and all of them are drawn.

use crate::builders::{Choice, Column, Plane, Standing};
use crate::cases::{MODES, WHENS};
use crate::cases::{drawn_options, drawn_texture_of, fill, inset, insets, options, three_ways};
use crate::numbers::{ENDS, LIMIT, SUBNORMAL, TINY, number, within};
use crate::random::Random;
use crate::shapes::{odd_hexagons, regular_hexagons, stretched, textures};
use crate::{FaceOptions, UVOptions};
use glam::{Quat, Vec2, Vec3, vec2, vec3};

/// How many planes, columns and turned ones of each there are.
pub const PLANES: usize = 330;
/// See [`PLANES`].
pub const COLUMNS: usize = 440;
/// See [`PLANES`].
pub const TURNED: usize = 60;

/// The most entries of a table of options here.
const ENTRIES: u32 = 4;

/// The subdivisions that columns are tried with.
const SUBDIVISIONS: [Option<u32>; 6] = [None, Some(0), Some(1), Some(2), Some(3), Some(5)];

/// Cases of one kind of job.
pub struct Cases<T> {
    /// No turn and no bottom: hexx's own bits count.
    pub plain: Vec<T>,
    /// A turn or a bottom or both: the written steps' bits count.
    pub turned: Vec<T>,
}

/// How great the numbers of a drawn job are.
#[derive(Debug, Clone, Copy, PartialEq, Eq)]
pub enum Size {
    /// Corners of tens, heights and moves of at most a hundred.
    Moderate,
    /// Any number that a job may carry, and ends of classes.
    Any,
}

/// The planes of the record.
#[must_use]
pub fn recorded_planes() -> Cases<Plane> {
    let mut random = Random::new(0x706c_616e);
    let mut plain: Vec<Plane> = Vec::new();
    let regular = regular_hexagons();
    let at = |at: usize| regular[at % regular.len()];
    for options in all_options() {
        let turn = plain.len();
        plain.push(plane(at(turn), Some(options), standing_of(turn)));
    }
    for (turn, corners) in odd_hexagons().into_iter().enumerate() {
        for (options, _) in three_ways(turn) {
            plain.push(plane(corners, Some(options), standing_of(plain.len())));
        }
    }
    for standing in standings() {
        let turn = plain.len();
        let options = (!turn.is_multiple_of(3)).then(|| three_ways(turn)[turn % 3].0);
        plain.push(plane(at(turn), options, standing));
    }
    let plain = fill(plain, PLANES, || drawn_plane(&mut random, false));
    let turned = (0..TURNED).map(|_| drawn_plane(&mut random, true));
    Cases {
        plain,
        turned: turned.collect(),
    }
}

/// The columns of the record.
#[must_use]
pub fn recorded_columns() -> Cases<Column> {
    let mut random = Random::new(0x636f_6c73);
    let mut plain = every_choice();
    for options in all_options() {
        let turn = plain.len();
        plain.push(one_sided(turn, options, standing_of(turn)));
    }
    for (turn, corners) in odd_hexagons().into_iter().enumerate() {
        for (options, _) in three_ways(turn) {
            let column = one_sided(plain.len(), options, standing_of(plain.len()));
            plain.push(with_corners(column, corners));
        }
    }
    for height in ENDS {
        let turn = plain.len();
        let column = one_sided(turn, three_ways(turn)[turn % 3].0, standing_of(turn));
        plain.push(Column { height, ..column });
    }
    for standing in standings() {
        let turn = plain.len();
        plain.push(one_sided(turn, three_ways(turn)[turn % 3].0, standing));
    }
    let plain = fill(plain, COLUMNS, || drawn_column(&mut random, false));
    let turned = (0..TURNED).map(|_| drawn_column(&mut random, true));
    Cases {
        plain,
        turned: turned.collect(),
    }
}

/// `count` drawn planes without a turn, and as many with one.
pub fn drawn_planes(random: &mut Random, count: usize) -> Cases<Plane> {
    Cases {
        plain: (0..count).map(|_| drawn_plane(random, false)).collect(),
        turned: (0..count).map(|_| drawn_plane(random, true)).collect(),
    }
}

/// `count` drawn columns without turn and bottom, and as many with.
pub fn drawn_columns(random: &mut Random, count: usize) -> Cases<Column> {
    Cases {
        plain: (0..count).map(|_| drawn_column(random, false)).collect(),
        turned: (0..count).map(|_| drawn_column(random, true)).collect(),
    }
}

/// Every inset with each scale, and every texture.
pub(crate) fn all_options() -> Vec<FaceOptions> {
    let once = insets().into_iter().filter(|(_, when)| *when == WHENS[0]);
    let textured = textures().into_iter().enumerate().map(|(at, uv)| {
        let inset = inset(MODES[at % 2], 0.3, at % 4 < 2);
        options(uv, (at % 3 > 0).then_some(inset))
    });
    once.map(|(options, _)| options).chain(textured).collect()
}

/// Places to stand, from none to all that can be supplied.
fn standing_of(turn: usize) -> Standing {
    let position = [Vec2::ZERO, vec2(17.3, -4.25), vec2(-0.0, 2.5)][turn % 3];
    Standing {
        position,
        centred: turn.is_multiple_of(2),
        scale: (turn % 4 > 1).then_some(vec3(1.5, 0.7, -2.1)),
        turn: None,
        offset: (turn % 5 > 2).then_some(vec3(0.1, -3.3, 1e-3)),
    }
}

/// Both zeros wherever they can stand, and every end of a class.
fn standings() -> Vec<Standing> {
    let mut all = Vec::new();
    let scales = [None, Some(-0.0), Some(1.0), Some(-1.0), Some(0.0)];
    for position in [0.0, -0.0] {
        for scale in scales {
            for offset in [None, Some(-0.0), Some(0.0)] {
                all.push(Standing {
                    position: Vec2::splat(position),
                    centred: all.len() % 2 == 0,
                    scale: scale.map(Vec3::splat),
                    turn: None,
                    offset: offset.map(Vec3::splat),
                });
            }
        }
    }
    let end = |at: usize| ENDS[at % ENDS.len()];
    all.extend((0..ENDS.len()).map(|at| Standing {
        position: vec2(end(at), end(at + 9)),
        centred: at % 2 == 1,
        scale: (at % 3 > 0).then(|| vec3(end(at + 4), end(at + 1), end(at + 17))),
        turn: None,
        offset: (at % 4 > 0).then(|| vec3(end(at + 13), end(at), end(at + 5))),
    }));
    all
}

/// A plane of one option, the default where there is none.
fn plane(corners: [Vec2; 6], options: Option<FaceOptions>, standing: Standing) -> Plane {
    Plane {
        corners,
        choice: options.map_or(Choice::Default, |_| Choice::Entry(0)),
        options: options.into_iter().collect(),
        standing,
    }
}

/// The left and right ends of the sides of a hexagon.
#[must_use]
pub fn ends_of(corners: [Vec2; 6]) -> [[Vec2; 2]; 6] {
    std::array::from_fn(|side| [corners[side], corners[(side + 1) % 6]])
}

fn with_corners(column: Column, corners: [Vec2; 6]) -> Column {
    Column {
        ends: ends_of(corners),
        corners,
        ..column
    }
}

/// Every set of sides, with and without a top. The sides take different
/// options, the default among them.
fn every_choice() -> Vec<Column> {
    let table = all_options();
    let regular = regular_hexagons();
    let heights = [2.0, -3.7, 0.0, -0.0, 0.001, 14.3, SUBNORMAL, -TINY, LIMIT];
    let column = |at: usize| {
        let entry = |face: usize| match (at + face) % 3 {
            0 => Choice::Default,
            _ => Choice::Entry((at / 3 + face) % 3),
        };
        let there = |face: usize| at >> face & 1 == 1;
        let choice = |face: usize| match there(face) {
            true => entry(face),
            false => Choice::Absent,
        };
        let corners = regular[at % regular.len()];
        Column {
            ends: ends_of(corners),
            corners,
            height: heights[at % heights.len()],
            subdivisions: SUBDIVISIONS[(at + at / 6) % 6],
            sides: std::array::from_fn(choice),
            top: choice(6),
            bottom: Choice::Absent,
            options: (0..3)
                .map(|k| table[(7 * at + 31 * k) % table.len()])
                .collect(),
            standing: standing_of(at),
        }
    };
    (0..128).map(column).collect()
}

/// A column of one side and a top, both of one option.
fn one_sided(turn: usize, options: FaceOptions, standing: Standing) -> Column {
    let regular = regular_hexagons();
    let corners = regular[turn % regular.len()];
    let mut sides = [Choice::Absent; 6];
    sides[turn % 6] = Choice::Entry(0);
    Column {
        ends: ends_of(corners),
        corners,
        height: [1.25, -0.4, 7.7][turn % 3],
        subdivisions: SUBDIVISIONS[turn / 3 % 4],
        sides,
        top: Choice::Entry(0),
        bottom: Choice::Absent,
        options: vec![options],
        standing,
    }
}

/// A drawn plane, moderate two times of three.
pub fn drawn_plane(random: &mut Random, turned: bool) -> Plane {
    let size = drawn_size(random);
    plane_of(random, size, turned)
}

/// A drawn column, moderate two times of three.
pub fn drawn_column(random: &mut Random, turned: bool) -> Column {
    let size = drawn_size(random);
    column_of(random, size, turned)
}

pub(crate) fn drawn_size(random: &mut Random) -> Size {
    match random.once_in(3) {
        true => Size::Any,
        false => Size::Moderate,
    }
}

/// A drawn plane.
pub fn plane_of(random: &mut Random, size: Size, turned: bool) -> Plane {
    let options = table(random, size);
    Plane {
        corners: corners(random, size),
        choice: drawn_choice(random, options.len()),
        options,
        standing: standing(random, size, turned),
    }
}

/// A drawn column, with a turn or a bottom or both where it is to be turned.
pub fn column_of(random: &mut Random, size: Size, turned: bool) -> Column {
    let options = table(random, size);
    let corners = corners(random, size);
    let ends = match size == Size::Any && random.once_in(3) {
        true => ends_of(corners).map(|ends| ends.map(|_| point(random, size, 0.0))),
        false => ends_of(corners),
    };
    let most = options.len();
    let choice = |random: &mut Random, absent: u32| match random.below(8) < absent {
        true => Choice::Absent,
        false => drawn_choice(random, most),
    };
    let sides = std::array::from_fn(|_| choice(random, 4));
    let top = choice(random, 3);
    let bottom = choice(random, if turned { 3 } else { 8 });
    let turn = turned && (bottom == Choice::Absent || random.once_in(2));
    Column {
        ends,
        corners,
        height: draw(random, size, 20.0),
        subdivisions: random.pick(&SUBDIVISIONS),
        sides,
        top,
        bottom,
        options,
        standing: standing(random, size, turn),
    }
}

pub(crate) fn draw(random: &mut Random, size: Size, moderate: f32) -> f32 {
    match size {
        Size::Moderate => within(random, moderate),
        Size::Any => number(random),
    }
}

pub(crate) fn point(random: &mut Random, size: Size, moderate: f32) -> Vec2 {
    vec2(draw(random, size, moderate), draw(random, size, moderate))
}

pub(crate) fn three(random: &mut Random, size: Size, moderate: f32) -> Vec3 {
    point(random, size, moderate).extend(draw(random, size, moderate))
}

/// A regular hexagon, a bent one, or, for numbers of any size, six points.
pub(crate) fn corners(random: &mut Random, size: Size) -> [Vec2; 6] {
    let by = vec2(within(random, 20.0), within(random, 20.0));
    let regular = stretched(random.once_in(2), by);
    match (size, random.below(3)) {
        (Size::Any, 0 | 1) => regular.map(|_| point(random, size, 0.0)),
        (_, 0) => regular,
        _ => regular.map(|corner| corner + point(random, Size::Moderate, 3.0)),
    }
}

/// Up to four options.
pub(crate) fn table(random: &mut Random, size: Size) -> Vec<FaceOptions> {
    let count = random.below(ENTRIES + 1);
    let mut option = || match size {
        Size::Any => drawn_options(random),
        Size::Moderate => moderate_options(random),
    };
    (0..count).map(|_| option()).collect()
}

fn moderate_options(random: &mut Random) -> FaceOptions {
    let uv = match random.once_in(2) {
        true => UVOptions::new(),
        false => drawn_texture_of(random, false),
    };
    let inset = inset(random.pick(&MODES), within(random, 1.0), random.once_in(2));
    options(uv, (!random.once_in(4)).then_some(inset))
}

/// The default, or an entry of a table of so many.
pub(crate) fn drawn_choice(random: &mut Random, entries: usize) -> Choice {
    match random.below(entries as u32 + 1) {
        0 => Choice::Default,
        entry => Choice::Entry(entry as usize - 1),
    }
}

fn standing(random: &mut Random, size: Size, turned: bool) -> Standing {
    let position = match random.once_in(3) {
        true => Vec2::ZERO,
        false => point(random, size, 100.0),
    };
    let scale = three(random, size, 4.0);
    let offset = three(random, size, 100.0);
    Standing {
        position,
        centred: random.once_in(2),
        scale: random.once_in(2).then_some(scale),
        turn: turned.then(|| quaternion(random)),
        offset: random.once_in(2).then_some(offset),
    }
}

/// A rotation about any axis by any angle, or one as `facing` makes it.
pub(crate) fn quaternion(random: &mut Random) -> Quat {
    let mut axis = || {
        let drawn = vec3(
            within(random, 1.0),
            within(random, 1.0),
            within(random, 1.0),
        );
        drawn.try_normalize().unwrap_or(Vec3::X)
    };
    let (axis, facing) = (axis(), axis());
    match random.below(4) {
        0 => Quat::from_rotation_arc(Vec3::Y, facing),
        1 => Quat::from_axis_angle(axis, random.pick(&[0.0, 0.5, 1.0]) * std::f32::consts::PI),
        _ => Quat::from_axis_angle(axis, within(random, 4.0)),
    }
}
