//! The cases of stored meshes, merges and cheap columns: lists that are gone
//! through in turn, and then drawn ones up to a fixed count.

use crate::cases::{drawn_hexagon, fill};
use crate::numbers::{BEYOND, ENDS, LEAST, LIMIT, SUBNORMAL, number, point, stored, within};
use crate::random::Random;
use crate::shapes::{odd_hexagons, regular_hexagons};
use crate::{Hex, HexLayout, MeshInfo, Place};
use glam::{Vec2, Vec3, vec2, vec3};

/// How many cases of each kind there are.
pub const SCALES: usize = 130;
/// See [`SCALES`].
pub const OFFSETS: usize = 130;
/// See [`SCALES`].
pub const UV_SCALES: usize = 180;
/// See [`SCALES`].
pub const MEANS: usize = 160;
/// See [`SCALES`].
pub const UV_MEANS: usize = 160;
/// See [`SCALES`].
pub const MERGES: usize = 180;
/// See [`SCALES`].
pub const COLUMNS: usize = 120;

/// The most vertices and indices of a mesh, and the most vertices of one whose
/// centroid is asked for.
pub const VERTICES: usize = 4;
/// See [`VERTICES`].
pub const INDICES: usize = 8;
/// See [`VERTICES`].
pub const SUMMED: usize = 12;

/// Two meshes, of which the first is put behind the second.
#[derive(Debug, Clone)]
pub struct Merge {
    pub source: MeshInfo,
    pub target: MeshInfo,
}

/// What makes a cheap column.
#[derive(Debug, Clone)]
pub struct Column {
    pub corners: [Vec2; 6],
    pub centre: Vec2,
    pub height: f32,
}

impl Column {
    /// hexx's own mesh.
    #[must_use]
    pub fn hexx(&self) -> MeshInfo {
        let layout = self.layout();
        MeshInfo::cheap_hexagonal_column(&layout, Hex::ZERO, self.height)
    }

    /// A layout whose zero hex is this one.
    #[must_use]
    pub fn layout(&self) -> HexLayout {
        HexLayout {
            zero: Place {
                world: self.centre,
                corners: self.corners,
                ..Place::default()
            },
            ..HexLayout::default()
        }
    }
}

impl Merge {
    /// hexx's own mesh.
    #[must_use]
    pub fn hexx(&self) -> MeshInfo {
        let mut merged = self.target.clone();
        merged.merge_with(self.source.clone());
        merged
    }
}

/// Cases of each kind.
pub struct Cases {
    pub scales: Vec<(Vec3, MeshInfo)>,
    pub offsets: Vec<(Vec3, MeshInfo)>,
    pub uv_scales: Vec<(Vec2, MeshInfo)>,
    pub means: Vec<MeshInfo>,
    pub uv_means: Vec<MeshInfo>,
    pub merges: Vec<Merge>,
    pub columns: Vec<Column>,
}

/// The cases of the record.
#[must_use]
pub fn recorded() -> Cases {
    Cases {
        scales: moves(0x7363_616c, SCALES),
        offsets: moves(0x6f66_6673, OFFSETS),
        uv_scales: uv_scales(),
        means: means(0x6d65_616e, MEANS),
        uv_means: means(0x7576_6d65, UV_MEANS),
        merges: merges(),
        columns: columns(),
    }
}

/// `count` cases of each kind, all drawn.
pub fn drawn(random: &mut Random, count: usize) -> Cases {
    Cases {
        scales: (0..count).map(|_| drawn_move(random)).collect(),
        offsets: (0..count).map(|_| drawn_move(random)).collect(),
        uv_scales: (0..count).map(|_| drawn_uv_scale(random)).collect(),
        means: (0..count).map(|_| drawn_mean(random)).collect(),
        uv_means: (0..count).map(|_| drawn_mean(random)).collect(),
        merges: (0..count).map(|_| drawn_merge(random)).collect(),
        columns: (0..count).map(|_| drawn_column(random)).collect(),
    }
}

/// Numbers whose sums round, cancel, overflow or are zeros of either sign, in
/// ways that show in what order they are added.
const SUMS: [&[f32]; 22] = [
    &[-0.0],
    &[-0.0, -0.0],
    &[-0.0, 0.0, -0.0],
    &[-0.0, -LEAST],
    &[LEAST, 0.0],
    &[LEAST, LEAST, LEAST, 0.0],
    &[-LEAST, -0.0],
    &[SUBNORMAL, SUBNORMAL, -LEAST],
    &[1e8, 1.0, -1e8],
    &[1.0, 1e8, 1.0, -1e8],
    &[16_777_216.0, 1.0, 1.0],
    &[1.0, 1.0, 16_777_216.0],
    &[0.1, 0.2, 0.3],
    &[0.1, 0.7, -0.8, 1e-9, 0.3],
    &[f32::MAX, f32::MAX, -f32::MAX, -f32::MAX],
    &[f32::MAX, -f32::MAX, f32::MAX],
    &[f32::INFINITY, 1.0],
    &[f32::INFINITY, f32::NEG_INFINITY],
    &[f32::NAN, 1.0, 2.0],
    &[1.0, 2.0, 4.0, 8.0, 16.0, 32.0, 65.0],
    &[LIMIT, LIMIT, LIMIT, 0.06, 0.06, 0.06],
    &[1.0, -1.0, -0.0, 1.0, -1.0],
];

/// All numbers of a stored mesh that are tried in turn.
fn all_stored() -> Vec<f32> {
    ENDS.into_iter().chain(BEYOND).collect()
}

/// A mesh with so many vertices and indices, whose numbers are drawn one after
/// the other.
fn mesh(vertices: usize, indices: Vec<u16>, number: impl FnMut() -> f32) -> MeshInfo {
    let mut number = number;
    let mut three = || vec3(number(), number(), number());
    let positions = (0..vertices).map(|_| three()).collect();
    let normals = (0..vertices).map(|_| three()).collect();
    MeshInfo {
        vertices: positions,
        normals,
        uvs: (0..vertices).map(|_| vec2(number(), number())).collect(),
        indices,
    }
}

/// Up to eight indices; a stored mesh may have any.
fn any_indices(random: &mut Random) -> Vec<u16> {
    let count = random.below(INDICES as u32 + 1);
    (0..count).map(|_| random.word() as u16).collect()
}

/// Up to eight indices below `vertices`.
fn lawful_indices(random: &mut Random, vertices: usize) -> Vec<u16> {
    if vertices == 0 {
        return Vec::new();
    }
    let count = random.below(INDICES as u32 + 1);
    let mut one = || random.below(vertices as u32) as u16;
    (0..count).map(|_| one()).collect()
}

fn drawn_mesh(random: &mut Random, most: usize) -> MeshInfo {
    let count = random.below(most as u32 + 1) as usize;
    let indices = any_indices(random);
    let wild = random.once_in(3);
    mesh(count, indices, || match wild {
        true => stored(random),
        false => within(random, 10.0),
    })
}

/// Every end of a class as the parameter, with every number that a stored mesh
/// may have, twelve to a mesh; then drawn ones.
fn moves(seed: u64, count: usize) -> Vec<(Vec3, MeshInfo)> {
    let mut random = Random::new(seed);
    let all = all_stored();
    let mut cases = Vec::new();
    for by in ENDS {
        for twelve in all.chunks(12) {
            let mut ring = twelve.iter().copied().cycle();
            let indices = any_indices(&mut random);
            let mesh = mesh(VERTICES, indices, || ring.next().unwrap_or(by));
            cases.push((Vec3::splat(by), mesh));
        }
    }
    fill(cases, count, || drawn_move(&mut random))
}

/// A parameter of three numbers and a mesh.
pub fn drawn_move(random: &mut Random) -> (Vec3, MeshInfo) {
    let by = vec3(number(random), number(random), number(random));
    (by, drawn_mesh(random, VERTICES))
}

/// The same for uvs, of which a mesh has eight numbers.
fn uv_scales() -> Vec<(Vec2, MeshInfo)> {
    let mut random = Random::new(0x7576_7363);
    let all = all_stored();
    let mut cases = Vec::new();
    for by in ENDS {
        for eight in all.chunks(8) {
            let mut ring = eight.iter().copied().cycle();
            let indices = any_indices(&mut random);
            let mesh = mesh(VERTICES, indices, || ring.next().unwrap_or(by));
            cases.push((Vec2::splat(by), mesh));
        }
    }
    fill(cases, UV_SCALES, || drawn_uv_scale(&mut random))
}

/// A parameter of two numbers and a mesh.
pub fn drawn_uv_scale(random: &mut Random) -> (Vec2, MeshInfo) {
    (point(random), drawn_mesh(random, VERTICES))
}

/// Each of the sums forwards, negated and backwards; every number alone; every
/// count of vertices; then drawn ones.
fn means(seed: u64, count: usize) -> Vec<MeshInfo> {
    let mut random = Random::new(seed);
    let mut cases: Vec<MeshInfo> = SUMS.into_iter().map(summed).collect();
    for three in all_stored().chunks(3) {
        let mut ring = three.iter().copied().cycle();
        let indices = any_indices(&mut random);
        cases.push(mesh(1, indices, || ring.next().unwrap_or(0.0)));
    }
    for vertices in 1..=SUMMED {
        let indices = any_indices(&mut random);
        cases.push(mesh(vertices, indices, || within(&mut random, 10.0)));
    }
    fill(cases, count, || drawn_mean(&mut random))
}

fn summed(numbers: &[f32]) -> MeshInfo {
    let both = || numbers.iter().zip(numbers.iter().rev());
    MeshInfo {
        vertices: both().map(|(&x, &y)| vec3(x, -x, y)).collect(),
        normals: both().map(|(&x, &y)| vec3(y, x, 1.0)).collect(),
        uvs: both().map(|(&x, &y)| vec2(x, y)).collect(),
        indices: Vec::new(),
    }
}

/// A mesh of some vertices.
pub fn drawn_mean(random: &mut Random) -> MeshInfo {
    let drawn = drawn_mesh(random, SUMMED);
    match drawn.vertices.is_empty() {
        // Ours refuses it, and hexx divides by 0.
        true => summed(&[number(random)]),
        false => drawn,
    }
}

/// Every pair of counts twice; then drawn ones.
fn merges() -> Vec<Merge> {
    let mut random = Random::new(0x6d65_7267);
    let mut ring = all_stored().into_iter().cycle();
    let mut cases = Vec::new();
    for _ in 0..2 {
        for source in 0..=VERTICES {
            for target in 0..=VERTICES {
                let [lawful, any] = [
                    lawful_indices(&mut random, source),
                    any_indices(&mut random),
                ];
                let mut number = || ring.next().unwrap_or(0.0);
                cases.push(Merge {
                    source: mesh(source, lawful, &mut number),
                    target: mesh(target, any, &mut number),
                });
            }
        }
    }
    fill(cases, MERGES, || drawn_merge(&mut random))
}

/// Two meshes, the source with lawful indices.
pub fn drawn_merge(random: &mut Random) -> Merge {
    let mut source = drawn_mesh(random, VERTICES);
    source.indices = lawful_indices(random, source.vertices.len());
    Merge {
        source,
        target: drawn_mesh(random, VERTICES),
    }
}

/// Every end of a class as the height and as the centre; hexagons that no
/// layout makes, about zero, about -0 and about a corner; then drawn ones.
fn columns() -> Vec<Column> {
    let mut random = Random::new(0x636f_6c75);
    let regular = regular_hexagons();
    let end = |at: usize| ENDS[at % ENDS.len()];
    let mut cases: Vec<Column> = (0..ENDS.len())
        .map(|at| Column {
            corners: regular[at % regular.len()],
            centre: vec2(end(at + 3), end(at + 11)),
            height: end(at),
        })
        .collect();
    for (at, corners) in odd_hexagons().into_iter().enumerate() {
        let centres = [Vec2::ZERO, vec2(-0.0, -0.0), corners[at % 6]];
        cases.push(Column {
            corners,
            centre: centres[at % 3],
            height: [1.0, -0.0, -LIMIT, 0.0][at % 4],
        });
    }
    fill(cases, COLUMNS, || drawn_column(&mut random))
}

/// A cheap column.
pub fn drawn_column(random: &mut Random) -> Column {
    let centre = match random.once_in(2) {
        true => Vec2::ZERO,
        false => point(random),
    };
    Column {
        corners: drawn_hexagon(random).corners,
        centre,
        height: number(random),
    }
}
