//! The f32 steps of hexx and glam written out one by one. Each choice that
//! could be another is a mark of [`Way`], so that it can be seen what tells
//! the two apart.

use crate::answers::{HexagonCase, QuadCase, When};
use crate::{FaceOptions, InsetOptions, InsetScaleMode, UVOptions};

/// A point in space.
pub type Point = [f32; 3];
/// A point of a texture, or of the ground.
pub type Uv = [f32; 2];

/// The choices in which steps like these may differ.
#[derive(Clone, Copy)]
pub struct Way {
    /// A unit vector is the vector times 1 / length, not divided by it.
    pub reciprocal: bool,
    /// A sum begins with +0, not with its first term.
    pub sum_from_zero: bool,
    /// A mean is divided by its count, not multiplied by 1 / count.
    pub mean_divides: bool,
    /// An inset point moves towards its next neighbour first.
    pub next_first: bool,
    /// The two moves are added to the point one after the other, not together.
    pub one_by_one: bool,
    /// A uv moves by its difference times (dist / length), not by
    /// (difference times dist) / length.
    pub ratio_first: bool,
    /// The shorter of the lengths to the previous and to the next neighbour.
    pub shorter: fn(f32, f32) -> f32,
    /// uv times scale, plus offset, is rounded once only.
    pub fused_offset: bool,
    /// The remap is rounded once only.
    pub fused_remap: bool,
    /// The connecting triangles are reversed if the scale is below 0, not if
    /// its sign is set.
    pub below_zero: bool,
    /// The kept inner triangles are reversed with the others.
    pub inner_reversed: bool,
    /// The uvs are altered after the inset where it should be before, and the
    /// other way round.
    pub other_time: bool,
}

/// The steps as we take hexx to do them.
pub const WRITTEN: Way = Way {
    reciprocal: true,
    sum_from_zero: true,
    mean_divides: true,
    next_first: true,
    one_by_one: true,
    ratio_first: true,
    shorter: |prev, next| if next < prev { next } else { prev },
    fused_offset: false,
    fused_remap: true,
    below_zero: true,
    inner_reversed: false,
    other_time: false,
};

/// A mesh of plain numbers.
#[derive(Debug, Clone, Default)]
pub struct Mesh {
    /// As in hexx.
    pub positions: Vec<Point>,
    /// As in hexx.
    pub normals: Vec<Point>,
    /// As in hexx.
    pub uvs: Vec<Uv>,
    /// As in hexx.
    pub indices: Vec<u16>,
}

/// sqrt(x*x + y*y), or with z*z added to that.
#[must_use]
pub fn length<const N: usize>(v: [f32; N]) -> f32 {
    let squares = v.map(|x| x * x);
    squares
        .into_iter()
        .reduce(|a, b| a + b)
        .unwrap_or(0.0)
        .sqrt()
}

/// The unit vector of `v`.
#[must_use]
pub fn unit<const N: usize>(way: &Way, v: [f32; N]) -> [f32; N] {
    let length = length(v);
    let reciprocal = 1.0 / length;
    v.map(|x| match way.reciprocal {
        true => x * reciprocal,
        false => x / length,
    })
}

/// The mean of `all`.
#[must_use]
pub fn mean<const N: usize>(way: &Way, all: &[[f32; N]]) -> [f32; N] {
    let start = if way.sum_from_zero { 0.0 } else { -0.0 };
    let count = all.len() as f32;
    std::array::from_fn(|k| {
        let sum = all.iter().fold(start, |sum, v| sum + v[k]);
        match way.mean_divides {
            true => sum / count,
            false => sum * (1.0 / count),
        }
    })
}

/// `wrap_uv` in steps.
#[must_use]
pub fn wrap(way: &Way, p: Uv) -> Uv {
    let reciprocal = 1.0 / length(p);
    let kept = !(reciprocal.is_finite() && reciprocal > 0.0);
    let p = if kept { p } else { unit(way, p) };
    p.map(|x| x / 2.0 + 0.5)
}

/// `alter_uv` in steps.
#[must_use]
pub fn alter(way: &Way, options: &UVOptions, uv: Uv) -> Uv {
    let flip = [options.flip.x, options.flip.y];
    std::array::from_fn(|k| {
        let u = if flip[k] { 1.0 - uv[k] } else { uv[k] };
        let (scale, offset) = (options.scale_factor[k], options.offset[k]);
        let (min, max) = (options.rect.min[k], options.rect.max[k]);
        let u = times_plus(way.fused_offset, u, scale, offset);
        times_plus(way.fused_remap, max - min, u, min)
    })
}

fn times_plus(fused: bool, a: f32, b: f32, c: f32) -> f32 {
    if fused { a.mul_add(b, c) } else { a * b + c }
}

/// A quad in steps.
#[must_use]
pub fn quad(way: &Way, case: &QuadCase) -> Mesh {
    let [left, right] = case.sides.map(|side| side.to_array());
    let [bottom, top] = case.heights;
    let [x, z] = unit(way, [left[0] + right[0], left[1] + right[1]]);
    let [low, high] = match case.range {
        Some([min, max]) => [bottom, top].map(|height| (height - min) / (max - min)),
        None => [0.0, 1.0],
    };
    let face = Mesh {
        positions: vec![
            [right[0], bottom, right[1]],
            [right[0], top, right[1]],
            [left[0], top, left[1]],
            [left[0], bottom, left[1]],
        ],
        normals: vec![[x, 0.0, z]; 4],
        uvs: vec![[1.0, low], [1.0, high], [0.0, high], [0.0, low]],
        indices: vec![2, 1, 0, 0, 3, 2],
    };
    finish(way, face, &case.options, case.when)
}

/// A hexagon in steps.
#[must_use]
pub fn hexagon(way: &Way, case: &HexagonCase) -> Mesh {
    let corners = case.corners.map(|corner| corner.to_array());
    let face = Mesh {
        positions: corners.map(|[x, z]| [x, 0.0, z]).to_vec(),
        normals: vec![[0.0, 1.0, 0.0]; 6],
        uvs: corners.map(|corner| wrap(way, corner)).to_vec(),
        indices: vec![0, 2, 1, 3, 5, 4, 0, 5, 3, 3, 2, 0],
    };
    finish(way, face, &case.options, case.when)
}

fn finish(way: &Way, mut face: Mesh, options: &FaceOptions, when: When) -> Mesh {
    let altered = |mut mesh: Mesh| {
        for uv in &mut mesh.uvs {
            *uv = alter(way, &options.uv, *uv);
        }
        mesh
    };
    let before = (when == When::Before) != way.other_time;
    if before {
        face = altered(face);
    }
    if let Some(opts) = options.insetting {
        face = inset(way, &face, opts);
    }
    if !before {
        face = altered(face);
    }
    face
}

/// The outer face, then the inner one, and what connects them.
#[must_use]
pub fn inset(way: &Way, face: &Mesh, options: InsetOptions) -> Mesh {
    let mut mesh = face.clone();
    let (positions, uvs) = match options.mode {
        InsetScaleMode::Centroid => (
            towards_mean(way, &face.positions, options.scale),
            towards_mean(way, &face.uvs, options.scale),
        ),
        InsetScaleMode::SmallestEdge => along_edges(way, face, options.scale),
    };
    mesh.positions.extend(positions);
    mesh.normals.extend(&face.normals);
    mesh.uvs.extend(uvs);
    mesh.indices = indices(way, face, options);
    mesh
}

fn towards_mean<const N: usize>(way: &Way, all: &[[f32; N]], scale: f32) -> Vec<[f32; N]> {
    let c = mean(way, all);
    let moved = |p: &[f32; N]| std::array::from_fn(|k| p[k] + (c[k] - p[k]) * scale);
    all.iter().map(moved).collect()
}

fn along_edges(way: &Way, face: &Mesh, scale: f32) -> (Vec<Point>, Vec<Uv>) {
    let count = face.positions.len();
    let moved = |at: usize| {
        let [prev, next] = [(at + count - 1) % count, (at + 1) % count];
        let to = |there: usize| minus(face.positions[there], face.positions[at]);
        let [to_prev, to_next] = [to(prev), to(next)];
        let [prev_length, next_length] = [length(to_prev), length(to_next)];
        let dist = (way.shorter)(prev_length, next_length) * scale;
        let by_next = unit(way, to_next).map(|x| x * dist);
        let by_prev = unit(way, to_prev).map(|x| x * dist);
        let position = plus_both(way, face.positions[at], by_next, by_prev);
        let share = |there: usize, length: f32| {
            minus(face.uvs[there], face.uvs[at]).map(|x| match way.ratio_first {
                true => x * (dist / length),
                false => x * dist / length,
            })
        };
        let [by_next, by_prev] = [share(next, next_length), share(prev, prev_length)];
        (position, plus_both(way, face.uvs[at], by_next, by_prev))
    };
    (0..count).map(moved).unzip()
}

fn minus<const N: usize>(a: [f32; N], b: [f32; N]) -> [f32; N] {
    std::array::from_fn(|k| a[k] - b[k])
}

/// `p` with both moves added.
fn plus_both<const N: usize>(
    way: &Way,
    p: [f32; N],
    by_next: [f32; N],
    by_prev: [f32; N],
) -> [f32; N] {
    let [first, second] = match way.next_first {
        true => [by_next, by_prev],
        false => [by_prev, by_next],
    };
    std::array::from_fn(|k| match way.one_by_one {
        true => (p[k] + first[k]) + second[k],
        false => p[k] + (first[k] + second[k]),
    })
}

fn indices(way: &Way, face: &Mesh, options: InsetOptions) -> Vec<u16> {
    let count = face.positions.len() as u16;
    let reversed = match way.below_zero {
        true => options.scale < 0.0,
        false => options.scale.is_sign_negative(),
    };
    let turn = |[a, b, c]: [u16; 3], on: bool| if on { [c, b, a] } else { [a, b, c] };
    let mut all = Vec::new();
    for v in 0..count {
        let n = (v + 1) % count;
        all.extend(turn([n + count, n, v], reversed));
        all.extend(turn([v, v + count, n + count], reversed));
    }
    if options.keep_inner_face {
        for tri in face.indices.chunks(3) {
            let inner = [tri[0], tri[1], tri[2]].map(|i| i + count);
            all.extend(turn(inner, reversed && way.inner_reversed));
        }
    }
    all
}
