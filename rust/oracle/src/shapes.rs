//! The quads, hexagons, textures and ranges that the cases try in turn.

use crate::numbers::{COARSE, LEAST, LIMIT, SUBNORMAL, TINY};
use crate::{Rect, UVOptions};
use glam::{BVec2, Vec2, vec2};

/// Half of the root of 3.
const HALF_ROOT: f32 = 0.866_025_4;

/// A hexagon's corners for size 1 with a corner on the second axis.
const POINTY: [Vec2; 6] = [
    vec2(HALF_ROOT, -0.5),
    vec2(HALF_ROOT, 0.5),
    vec2(0.0, 1.0),
    vec2(-HALF_ROOT, 0.5),
    vec2(-HALF_ROOT, -0.5),
    vec2(0.0, -1.0),
];

/// A hexagon's corners for size 1 with a corner on the first axis.
const FLAT: [Vec2; 6] = [
    vec2(0.5, -HALF_ROOT),
    vec2(1.0, 0.0),
    vec2(0.5, HALF_ROOT),
    vec2(-0.5, HALF_ROOT),
    vec2(-1.0, 0.0),
    vec2(-0.5, -HALF_ROOT),
];

/// A quad's left and right ends, and its bottom and top.
pub type QuadShape = ([Vec2; 2], [f32; 2]);

/// A regular hexagon, stretched along each axis.
#[must_use]
pub fn stretched(pointy: bool, by: Vec2) -> [Vec2; 6] {
    let corners = if pointy { POINTY } else { FLAT };
    corners.map(|corner| corner * by)
}

/// Hexagons as layouts make them: both orientations, several sizes, squashed
/// and mirrored ones.
#[must_use]
pub fn regular_hexagons() -> Vec<[Vec2; 6]> {
    let sizes = [
        vec2(1.0, 1.0),
        vec2(10.0, 10.0),
        vec2(0.3, 0.3),
        vec2(2.0, 0.5),
        vec2(-1.5, 0.7),
        vec2(777.77, 1234.5),
    ];
    let of_size = |size| [stretched(true, size), stretched(false, size)];
    sizes.into_iter().flat_map(of_size).collect()
}

/// Hexagons that no layout makes.
#[must_use]
pub fn odd_hexagons() -> Vec<[Vec2; 6]> {
    let mut shapes = vec![
        // No length anywhere, with either sign.
        [Vec2::ZERO; 6],
        [vec2(-0.0, -0.0); 6],
        [vec2(0.1, -0.7); 6],
        // Squares that vanish, that are subnormal, and that are great.
        stretched(true, Vec2::splat(TINY)),
        stretched(false, Vec2::splat(COARSE)),
        stretched(false, Vec2::splat(SUBNORMAL)),
        stretched(true, Vec2::splat(LIMIT)),
        stretched(false, Vec2::splat(-LIMIT)),
        stretched(true, vec2(LIMIT, TINY)),
        // Flat on an axis.
        stretched(true, vec2(1.0, 0.0)),
        stretched(false, vec2(-0.0, 2.0)),
        [
            vec2(TINY, 0.0),
            vec2(0.0, TINY),
            vec2(-TINY, -0.0),
            vec2(LEAST, -LEAST),
            vec2(1.0, 0.0),
            vec2(-0.0, 1.0),
        ],
    ];
    shapes.extend([(true, 0), (true, 2), (false, 5)].map(with_equal_neighbours));
    // One corner far away, and one at zero.
    let mut far = POINTY;
    far[3] = vec2(-LIMIT, LIMIT);
    shapes.push(far);
    let mut pulled = FLAT;
    pulled[1] = vec2(-0.0, 0.0);
    shapes.push(pulled);
    shapes
}

/// A hexagon whose corner `at` is also the next one.
fn with_equal_neighbours((pointy, at): (bool, usize)) -> [Vec2; 6] {
    let mut corners = stretched(pointy, vec2(1.3, 1.1));
    corners[(at + 1) % 6] = corners[at];
    corners
}

/// Quads on the sides of regular hexagons.
#[must_use]
pub fn regular_quads() -> Vec<QuadShape> {
    let heights = [
        [0.0, 1.0],
        [0.3, 2.7],
        [-1.25, 4.1],
        [7.0, 7.5],
        [2.0, -1.0],
    ];
    let sides = regular_hexagons().into_iter().enumerate();
    let quad = |(at, corners): (usize, [Vec2; 6])| {
        let ends = [corners[at % 6], corners[(at + 1) % 6]];
        (ends, heights[at % heights.len()])
    };
    sides.map(quad).collect()
}

/// Quads that no layout makes.
#[must_use]
pub fn odd_quads() -> Vec<QuadShape> {
    let [left, right] = [vec2(1.0, 1.0), vec2(1.0, -1.0)];
    let zero = vec2(-0.0, -0.0);
    let least = vec2(LEAST, LEAST);
    let limit = vec2(LIMIT, LIMIT);
    vec![
        ([left, right], [0.0, 2.0]),
        // Edges without length: below and above, at the sides, everywhere.
        ([left, left], [0.0, 2.0]),
        ([left, right], [2.0, 2.0]),
        ([right, right], [-0.5, -0.5]),
        ([Vec2::ZERO, Vec2::ZERO], [0.0, 0.0]),
        ([zero, zero], [-0.0, -0.0]),
        // No normal, as the ends cancel.
        ([left, -left], [0.0, 1.0]),
        ([vec2(0.3, -0.7), vec2(-0.3, 0.7)], [0.25, 0.75]),
        ([limit, -limit], [-LIMIT, LIMIT]),
        // Normals of sums whose squares vanish or are subnormal.
        ([vec2(TINY, 0.0), vec2(TINY, 0.0)], [0.0, 1.0]),
        ([vec2(0.0, -TINY), vec2(-0.0, -TINY)], [0.0, TINY]),
        ([vec2(COARSE, COARSE), vec2(COARSE, -COARSE)], [0.0, COARSE]),
        ([vec2(1.0, TINY), vec2(-1.0, TINY)], [0.0, 1.0]),
        ([least, -least], [LEAST, -LEAST]),
        (
            [vec2(SUBNORMAL, 0.0), vec2(0.0, SUBNORMAL)],
            [0.0, SUBNORMAL],
        ),
        // Both signs of zero.
        ([vec2(-0.0, 1.0), vec2(0.0, 1.0)], [-0.0, 0.0]),
        ([vec2(1.0, -0.0), vec2(-0.0, -1.0)], [-0.0, 3.0]),
        ([vec2(-2.0, 0.0), vec2(-2.0, -0.0)], [0.0, -0.0]),
        // At the limit.
        ([limit, vec2(LIMIT, -LIMIT)], [0.0, LIMIT]),
        ([vec2(-LIMIT, 0.1), vec2(-LIMIT, 0.2)], [-LIMIT, 0.3]),
        ([vec2(0.1, 0.2), vec2(0.2, 0.1)], [LIMIT, LIMIT]),
    ]
}

/// Ranges of heights: ordinary, inverted, flat and at the limit.
pub const RANGES: [[f32; 2]; 12] = [
    [0.0, 5.0],
    [-1.25, 7.3],
    [0.1, 0.7],
    [5.0, 0.0],
    [0.0, 0.0],
    [2.0, 2.0],
    [-0.0, 0.0],
    [0.0, -0.0],
    [0.0, LEAST],
    [-LIMIT, LIMIT],
    [LIMIT, LIMIT],
    [SUBNORMAL, 1.0],
];

/// Texture options of every kind; the default is the first.
#[must_use]
pub fn textures() -> Vec<UVOptions> {
    let mut all = vec![UVOptions::new()];
    for flip in [[true, false], [false, true], [true, true], [false, false]] {
        all.extend(RECTS.map(|rect| texture(flip, [1.7, -0.3], [0.21, 0.9], rect)));
        all.push(texture(flip, [1.0, 1.0], [0.0, 0.0], RECTS[0]));
    }
    let plain = |scale, offset| texture([false; 2], scale, offset, RECTS[0]);
    all.extend([
        plain([2.0, 0.5], [0.0, 0.0]),
        plain([0.0, -0.0], [-0.0, -0.0]),
        plain([-1.0, 3.0], [-0.0, 0.1]),
        plain([1.0, 1.0], [0.25, -0.75]),
        plain([LIMIT, -LIMIT], [LIMIT, LIMIT]),
        plain([SUBNORMAL, LEAST], [-SUBNORMAL, LEAST]),
    ]);
    all
}

/// Rectangles as min u, min v, max u, max v: the default, a part, inverted
/// ones, one without extent, one at the limit, and one below every normal.
const RECTS: [[f32; 4]; 7] = [
    [0.0, 0.0, 1.0, 1.0],
    [0.1, 0.25, 0.7, 0.9],
    [1.0, 1.0, 0.0, 0.0],
    [0.9, 0.1, 0.3, 0.8],
    [0.4, -0.0, 0.4, -0.0],
    [-LIMIT, LIMIT, LIMIT, -LIMIT],
    [SUBNORMAL, -LEAST, -SUBNORMAL, LEAST],
];

/// Texture options from plain numbers.
#[must_use]
pub fn texture(flip: [bool; 2], scale: [f32; 2], offset: [f32; 2], rect: [f32; 4]) -> UVOptions {
    let [min_u, min_v, max_u, max_v] = rect;
    UVOptions {
        scale_factor: Vec2::from_array(scale),
        flip: BVec2::from_array(flip),
        offset: Vec2::from_array(offset),
        rect: Rect {
            min: vec2(min_u, min_v),
            max: vec2(max_u, max_v),
        },
    }
}
