//! The cases of the record: lists that are gone through in turn, and then
//! drawn ones up to a fixed count.

use crate::answers::{HexagonCase, QuadCase, When};
use crate::numbers::{ENDS, SCALES, number, point, within};
use crate::random::Random;
use crate::shapes::{
    QuadShape, RANGES, odd_hexagons, odd_quads, regular_hexagons, regular_quads, stretched,
    texture, textures,
};
use crate::{FaceOptions, InsetOptions, InsetScaleMode, UVOptions};
use glam::{Vec2, vec2};

/// How many cases of each kind there are.
pub const POINTS: usize = 300;
/// See [`POINTS`].
pub const WRAPS: usize = 150;
/// See [`POINTS`].
pub const QUADS: usize = 260;
/// See [`POINTS`].
pub const HEXAGONS: usize = 220;

/// Cases of each kind.
pub struct Cases {
    pub points: Vec<(UVOptions, Vec2)>,
    pub wraps: Vec<Vec2>,
    pub quads: Vec<QuadCase>,
    pub hexagons: Vec<HexagonCase>,
}

/// The cases of the record.
#[must_use]
pub fn recorded() -> Cases {
    Cases {
        points: points(),
        wraps: wraps(),
        quads: quads(),
        hexagons: hexagons(),
    }
}

/// `count` cases of each kind, all drawn.
pub fn drawn(random: &mut Random, count: usize) -> Cases {
    let texture = |random: &mut Random| (drawn_texture(random), point(random));
    Cases {
        points: (0..count).map(|_| texture(random)).collect(),
        wraps: (0..count).map(|_| point(random)).collect(),
        quads: (0..count).map(|_| drawn_quad(random)).collect(),
        hexagons: (0..count).map(|_| drawn_hexagon(random)).collect(),
    }
}

/// Both orders of texture and inset.
pub(crate) const WHENS: [When; 2] = [When::Before, When::After];

/// Both kinds of inset.
pub(crate) const MODES: [InsetScaleMode; 2] =
    [InsetScaleMode::Centroid, InsetScaleMode::SmallestEdge];

/// Texture options, each with a point to alter.
fn points() -> Vec<(UVOptions, Vec2)> {
    let mut random = Random::new(0x7061_6e65);
    let textures = textures();
    let mut cases = Vec::new();
    for (at, &end) in ENDS.iter().enumerate() {
        cases.push((UVOptions::new(), vec2(end, ENDS[ENDS.len() - 1 - at])));
    }
    for corner in [vec2(1.0, 0.0), vec2(0.37, -0.0), vec2(-2.6, 1.9)] {
        cases.extend(textures.iter().map(|&options| (options, corner)));
    }
    fill(cases, POINTS, || {
        (drawn_texture(&mut random), drawn_uv(&mut random))
    })
}

/// Points to wrap.
fn wraps() -> Vec<Vec2> {
    let mut random = Random::new(0x7772_6170);
    let mut cases: Vec<Vec2> = ENDS.iter().map(|&end| vec2(end, 0.0)).collect();
    cases.extend(ENDS.iter().map(|&end| vec2(-0.0, -end)));
    cases.extend(ENDS.iter().map(|&end| vec2(end, end)));
    cases.extend(regular_hexagons().iter().map(|corners| corners[1]));
    fill(cases, WRAPS, || point(&mut random))
}

/// Quads.
fn quads() -> Vec<QuadCase> {
    let mut random = Random::new(0x7175_6164);
    let mut cases = Vec::new();
    let regular = regular_quads();
    for (at, (options, when)) in insets().into_iter().enumerate() {
        let range = (at % 2 == 1).then(|| RANGES[at / 2 % RANGES.len()]);
        cases.push(quad(regular[at % regular.len()], range, options, when));
    }
    for (at, shape) in odd_quads().into_iter().enumerate() {
        for (options, when) in three_ways(at) {
            let range = (cases.len() % 3 == 1).then(|| RANGES[at % RANGES.len()]);
            cases.push(quad(shape, range, options, when));
        }
    }
    for &range in &RANGES {
        // The bottom is the range's own start: 0 over 0 where that is flat.
        let shape = (regular[0].0, [range[0], 2.0]);
        cases.push(quad(shape, Some(range), FaceOptions::new(), When::Before));
    }
    fill(cases, QUADS, || drawn_quad(&mut random))
}

/// Hexagons.
fn hexagons() -> Vec<HexagonCase> {
    let mut random = Random::new(0x6865_7861);
    let mut cases = Vec::new();
    let regular = regular_hexagons();
    for (at, (options, when)) in insets().into_iter().enumerate() {
        cases.push(hexagon(regular[at % regular.len()], options, when));
    }
    for (at, corners) in odd_hexagons().into_iter().enumerate() {
        for (options, when) in three_ways(at) {
            cases.push(hexagon(corners, options, when));
        }
    }
    for corners in regular {
        cases.push(hexagon(corners, FaceOptions::new(), When::After));
    }
    fill(cases, HEXAGONS, || drawn_hexagon(&mut random))
}

/// Adds drawn cases up to `count`.
pub(crate) fn fill<T>(mut cases: Vec<T>, count: usize, mut draw: impl FnMut() -> T) -> Vec<T> {
    assert!(cases.len() <= count, "the lists alone are too long");
    while cases.len() < count {
        cases.push(draw());
    }
    cases
}

/// Every inset with each of the scales and both orders; the texture is the
/// default in every other one.
pub(crate) fn insets() -> Vec<(FaceOptions, When)> {
    let textures = textures();
    let mut all = Vec::new();
    for scale in SCALES {
        for mode in MODES {
            for keep_inner_face in [false, true] {
                for when in WHENS {
                    let turn = all.len() + all.len() / 8;
                    let uv = textures[turn % 2 * (turn / 2 % textures.len())];
                    let inset = inset(mode, scale, keep_inner_face);
                    all.push((options(uv, Some(inset)), when));
                }
            }
        }
    }
    all
}

/// No inset and one of each kind, with scales and orders that change from
/// shape to shape.
pub(crate) fn three_ways(at: usize) -> [(FaceOptions, When); 3] {
    let textures = textures();
    let uv = textures[(at % 3 / 2) * (at % textures.len())];
    let keep = at % 4 < 2;
    let scale = [0.25, -0.4, 1.0][at % 3];
    let [first, second] = [WHENS[at % 2], WHENS[1 - at % 2]];
    let [centroid, smallest] = MODES;
    [
        (options(uv, None), first),
        (options(uv, Some(inset(centroid, scale, keep))), second),
        (options(uv, Some(inset(smallest, scale, !keep))), first),
    ]
}

pub(crate) fn inset(mode: InsetScaleMode, scale: f32, keep_inner_face: bool) -> InsetOptions {
    InsetOptions {
        keep_inner_face,
        scale,
        mode,
    }
}

pub(crate) fn options(uv: UVOptions, insetting: Option<InsetOptions>) -> FaceOptions {
    FaceOptions { uv, insetting }
}

fn quad(
    (sides, heights): QuadShape,
    range: Option<[f32; 2]>,
    options: FaceOptions,
    when: When,
) -> QuadCase {
    QuadCase {
        sides,
        heights,
        range,
        options,
        when,
    }
}

fn hexagon(corners: [Vec2; 6], options: FaceOptions, when: When) -> HexagonCase {
    HexagonCase {
        corners,
        options,
        when,
    }
}

/// A point mostly within the texture.
fn drawn_uv(random: &mut Random) -> Vec2 {
    if random.once_in(4) {
        return point(random);
    }
    vec2(random.unit(), random.unit())
}

/// Texture options of drawn numbers, mostly ordinary ones.
pub fn drawn_texture(random: &mut Random) -> UVOptions {
    let wild = random.once_in(4);
    drawn_texture_of(random, wild)
}

/// Texture options of drawn numbers, of any class or ordinary ones.
pub(crate) fn drawn_texture_of(random: &mut Random, wild: bool) -> UVOptions {
    let mut draw = || match wild {
        true => number(random),
        false => within(random, 2.0),
    };
    let (scale, offset) = ([draw(), draw()], [draw(), draw()]);
    let rect = [draw(), draw(), draw(), draw()];
    let flip = [random.once_in(2), random.once_in(2)];
    texture(flip, scale, offset, rect)
}

/// Options with the default texture in every other one and with any inset.
pub fn drawn_options(random: &mut Random) -> FaceOptions {
    let uv = match random.once_in(2) {
        true => UVOptions::new(),
        false => drawn_texture(random),
    };
    let scale = match random.below(4) {
        0 => number(random),
        1 => random.pick(&SCALES),
        _ => within(random, 1.0),
    };
    let inset = inset(random.pick(&MODES), scale, random.once_in(2));
    options(uv, (!random.once_in(4)).then_some(inset))
}

/// A quad of drawn numbers.
pub fn drawn_quad(random: &mut Random) -> QuadCase {
    let wild = random.once_in(3);
    let mut draw = || match wild {
        true => number(random),
        false => within(random, 10.0),
    };
    let sides = [vec2(draw(), draw()), vec2(draw(), draw())];
    let heights = [draw(), draw()];
    let range = [draw(), draw()];
    let range = (!random.once_in(2)).then_some(range);
    let options = drawn_options(random);
    quad((sides, heights), range, options, random.pick(&WHENS))
}

/// A regular hexagon, a bent one, or six drawn points.
pub fn drawn_hexagon(random: &mut Random) -> HexagonCase {
    let size = vec2(within(random, 20.0), within(random, 20.0));
    let regular = stretched(random.once_in(2), size);
    let corners = match random.below(4) {
        0 => regular.map(|_| point(random)),
        1 => regular,
        _ => regular.map(|corner| corner + vec2(within(random, 3.0), within(random, 3.0))),
    };
    hexagon(corners, drawn_options(random), random.pick(&WHENS))
}
