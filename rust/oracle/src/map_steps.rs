//! The steps of a height map written out one by one: which faces it has, and
//! what becomes of each. The faces themselves are hexx's, or those of
//! [`crate::steps`]. Each choice that could be another is a mark of [`Way`], so
//! that it can be seen what tells the two apart.

use crate::answers::{HexagonCase, QuadCase, When};
use crate::builders::Choice;
use crate::maps::{Map, custom};
use crate::steps::{Mesh, Point};
use crate::{FaceOptions, MeshInfo, answers, steps};
use glam::{Vec2, Vec3};

/// What makes the faces.
#[derive(Clone, Copy)]
pub struct Faces {
    pub hexagon: fn(&HexagonCase) -> Mesh,
    pub quad: fn(&QuadCase) -> Mesh,
}

/// hexx's own faces.
pub const HEXX: Faces = Faces {
    hexagon: |case| Mesh::from(&answers::hexagon(case)),
    quad: |case| Mesh::from(&answers::quad(case)),
};

/// hexx's own faces, their uvs altered at the other time.
pub const OTHER_TIME: Faces = Faces {
    hexagon: |case| {
        let when = When::Before;
        (HEXX.hexagon)(&HexagonCase { when, ..*case })
    },
    quad: |case| {
        let when = When::After;
        (HEXX.quad)(&QuadCase { when, ..*case })
    },
};

/// Faces of single steps.
pub const STEPS: Faces = Faces {
    hexagon: |case| steps::hexagon(&steps::WRITTEN, case),
    quad: |case| steps::quad(&steps::WRITTEN, case),
};

impl From<&MeshInfo> for Mesh {
    fn from(mesh: &MeshInfo) -> Self {
        Self {
            positions: mesh.vertices.iter().map(Vec3::to_array).collect(),
            normals: mesh.normals.iter().map(Vec3::to_array).collect(),
            uvs: mesh.uvs.iter().map(Vec2::to_array).collect(),
            indices: mesh.indices.clone(),
        }
    }
}

impl From<&Mesh> for MeshInfo {
    fn from(mesh: &Mesh) -> Self {
        Self {
            vertices: mesh.positions.iter().map(|&v| v.into()).collect(),
            normals: mesh.normals.iter().map(|&v| v.into()).collect(),
            uvs: mesh.uvs.iter().map(|&v| v.into()).collect(),
            indices: mesh.indices.clone(),
        }
    }
}

/// The choices in which the steps of a map may differ.
#[derive(Clone, Copy)]
pub struct Way {
    pub make: Faces,
    /// Whether a height beyond a side lets it stand under the cell's own.
    pub is_below: fn(f32, f32) -> bool,
    /// How many sides further the neighbour is looked up.
    pub turned_by: usize,
    /// The fringe is asked only where there is no neighbour.
    pub neighbour_first: bool,
    /// A custom 255 is the job's own option, not the default.
    pub own_is_jobs: bool,
    /// How many places further a custom option is looked up.
    pub custom_at: usize,
    /// Of equal heights the earlier is an end of the range.
    pub earlier: bool,
    /// A cap's move in x and z is 0 times its height, not +0.
    pub level_of_height: bool,
    /// That move is added to the position, not to zero before it.
    pub position_first: bool,
    /// A side is moved by no position.
    pub sides_stay: bool,
    /// The scale comes before the offset.
    pub scale_first: bool,
    /// Normals are turned too.
    pub turns_normals: bool,
    /// The origin is added by itself, not joined to the offset.
    pub origin_apart: bool,
}

/// The steps as the scope has them, over hexx's faces.
pub const OVER_HEXX: Way = Way {
    make: HEXX,
    is_below: |beyond, own| beyond < own,
    turned_by: 0,
    neighbour_first: true,
    own_is_jobs: true,
    custom_at: 0,
    earlier: true,
    level_of_height: true,
    position_first: true,
    sides_stay: true,
    scale_first: true,
    turns_normals: true,
    origin_apart: true,
};

/// The same over faces of single steps.
pub const WRITTEN: Way = Way {
    make: STEPS,
    ..OVER_HEXX
};

/// The map as one mesh.
#[must_use]
pub fn whole(way: &Way, map: &Map) -> Mesh {
    joined(&faces(way, map, range(way, map)))
}

/// The meshes of the faces in order: of each cell its cap, then its sides.
#[must_use]
pub fn faces(way: &Way, map: &Map, range: [f32; 2]) -> Vec<Mesh> {
    let mut all = Vec::new();
    for cell in 0..map.count() {
        if let Some(options) = options(way, map, map.caps, 7 * cell) {
            all.push(cap(way, map, cell, options));
        }
        for side in 0..6 {
            let options = options(way, map, map.sides, 7 * cell + 1 + side);
            let foot = foot(way, map, cell, side);
            if let Some((options, foot)) = options.zip(foot) {
                let case = wall(map, cell, side, foot, range, options);
                all.push(kept(way, map, cell, (way.make.quad)(&case)));
            }
        }
    }
    all.iter_mut().for_each(|face| place(way, map, face));
    all
}

/// The options of a face whose custom number stands at `at`: its own, else
/// those of all caps or sides. A custom option alone makes no face.
pub(crate) fn options(way: &Way, map: &Map, all: Choice, at: usize) -> Option<FaceOptions> {
    let all = all.options(&map.options)?;
    let Some(customs) = &map.customs else {
        return Some(all);
    };
    let number = customs[(at + way.custom_at) % customs.len()];
    let own = match way.own_is_jobs {
        true => all,
        false => FaceOptions::new(),
    };
    Some(custom(number, &map.options).unwrap_or(own))
}

/// The range of all heights, or the one that is given. Of equal heights the
/// earlier is kept.
#[must_use]
pub fn range(way: &Way, map: &Map) -> [f32; 2] {
    let heights = || (0..map.count()).map(|cell| map.height(cell));
    let is_below = |a: f32, b: f32| a < b || (!way.earlier && a == b);
    let least = heights().reduce(|least, next| if is_below(next, least) { next } else { least });
    let most = heights().reduce(|most, next| if is_below(most, next) { next } else { most });
    let of_all = [least, most].map(|end| end.unwrap_or(0.0));
    map.range.unwrap_or(of_all)
}

/// The height beyond a side where it is below the cell's.
pub(crate) fn foot(way: &Way, map: &Map, cell: usize, side: usize) -> Option<f32> {
    let neighbour = map.neighbour(cell, (side + way.turned_by) % 6);
    let neighbour = neighbour.map(|neighbour| map.height(neighbour as usize));
    let fringe = map.fringe.as_ref().map(|heights| heights[6 * cell + side]);
    let beyond = match way.neighbour_first {
        true => neighbour.or(fringe),
        false => fringe.or(neighbour),
    };
    beyond.filter(|&beyond| (way.is_below)(beyond, map.height(cell)))
}

/// A cap: inset, moved, and its uvs altered.
fn cap(way: &Way, map: &Map, cell: usize, options: FaceOptions) -> Mesh {
    let mut mesh = (way.make.hexagon)(&HexagonCase {
        corners: map.corners,
        options,
        when: When::After,
    });
    let height = map.height(cell);
    let level = if way.level_of_height {
        0.0 * height
    } else {
        0.0
    };
    let mut rise = [level, height, level];
    if !way.position_first {
        rise = plus([0.0; 3], rise);
    }
    let by = plus(flat(map.position(cell)), rise);
    each(&mut mesh.positions, |p| plus(p, by));
    mesh
}

/// A side from its foot to the cell's height, its v by the range, altered
/// before it is inset.
fn wall(
    map: &Map,
    cell: usize,
    side: usize,
    foot: f32,
    range: [f32; 2],
    options: FaceOptions,
) -> QuadCase {
    QuadCase {
        sides: map.ends(cell, side),
        heights: [foot, map.height(cell)],
        range: Some(range),
        options,
        when: When::Before,
    }
}

/// A side where it is, since its ends have the position in them.
fn kept(way: &Way, map: &Map, cell: usize, mut mesh: Mesh) -> Mesh {
    if !way.sides_stay {
        let by = flat(map.position(cell));
        each(&mut mesh.positions, |p| plus(p, by));
    }
    mesh
}

/// Scale, turn and offset, each if supplied, and the origin by itself.
fn place(way: &Way, map: &Map, mesh: &mut Mesh) {
    if way.scale_first {
        scale(map, mesh);
    }
    if let Some(turn) = map.turn {
        let rows = turn.rows().map(|row| row.to_array());
        each(&mut mesh.positions, |p| turned(&rows, p));
        if way.turns_normals {
            each(&mut mesh.normals, |n| turned(&rows, n));
        }
    }
    let offset = map.offset.map(|offset| offset.to_array());
    let origin = map.origin.map(flat);
    let moves = match (offset, origin) {
        (Some(offset), Some(origin)) if !way.origin_apart => [Some(plus(offset, origin)), None],
        both => both.into(),
    };
    for by in moves.into_iter().flatten() {
        each(&mut mesh.positions, |p| plus(p, by));
    }
    if !way.scale_first {
        scale(map, mesh);
    }
}

fn scale(map: &Map, mesh: &mut Mesh) {
    if let Some(scale) = map.scale {
        let [x, y, z] = scale.to_array();
        each(&mut mesh.positions, |p| [p[0] * x, p[1] * y, p[2] * z]);
    }
}

/// Each component adds its products from left to right.
fn turned(rows: &[Point; 3], v: Point) -> Point {
    rows.map(|row| row[0] * v[0] + row[1] * v[1] + row[2] * v[2])
}

/// A point of the ground at height +0.
fn flat(point: Vec2) -> Point {
    [point.x, 0.0, point.y]
}

fn plus(a: Point, b: Point) -> Point {
    [a[0] + b[0], a[1] + b[1], a[2] + b[2]]
}

fn each(all: &mut [Point], step: impl Fn(Point) -> Point) {
    all.iter_mut().for_each(|p| *p = step(*p));
}

/// The greatest component of what is added, or of the mesh with nothing scaled,
/// turned or added, times the greatest of the scale: distances are measured by
/// it.
#[must_use]
pub fn magnitude(map: &Map) -> f32 {
    let plain = Map {
        scale: None,
        turn: None,
        offset: None,
        origin: None,
        ..map.clone()
    };
    let greatest = |most: f32, x: &f32| most.max(x.abs());
    let unscaled = whole(&OVER_HEXX, &plain).positions;
    let unscaled = unscaled.iter().flatten().fold(0.0, greatest);
    let scale = map.scale.map_or(1.0, |scale| scale.abs().max_element());
    let offset = map.offset.map_or(0.0, |offset| offset.abs().max_element());
    let origin = map.origin.map_or(0.0, |origin| origin.abs().max_element());
    (unscaled * scale).max(offset).max(origin)
}

/// All faces end to end.
#[must_use]
pub fn joined(faces: &[Mesh]) -> Mesh {
    let mut whole = Mesh::default();
    for face in faces {
        let before = whole.positions.len() as u16;
        whole.positions.extend(&face.positions);
        whole.normals.extend(&face.normals);
        whole.uvs.extend(&face.uvs);
        whole
            .indices
            .extend(face.indices.iter().map(|index| before + index));
    }
    whole
}
