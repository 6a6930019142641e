//! Merges and jobs at their limits: every place of the lists, and each fault beside the limit.

mod common;
use common::jobs::{hold_face, hold_job, Column, Job, Plane, Table};
use common::merges::Merge;
use common::*;
use hosirekar_sys::*;

/// Each of some lists short, each of some indices, each buffer tight or none.
fn with_faults(merge: Merge, short: &[Option<usize>], odd: &[Option<(usize, u16)>]) -> Vec<Merge> {
    let tight = [None, Some(0), Some(1), Some(2), Some(3)];
    let mut sets = Vec::new();
    for tight in tight {
        for odd in odd {
            for list in short {
                sets.push(merge.tight(tight).unlawful(*odd).short(*list));
            }
        }
    }
    sets
}

/// A part of the sets: the source's uvs or the target's normals short, the last index, each buffer.
fn with_some_faults(merge: Merge) -> Vec<Merge> {
    let [last, ..] = merge.unlawful_indices();
    with_faults(merge, &[None, Some(2), Some(5)], &[None, last])
}

#[test]
fn merges_with_every_set_of_faults() {
    let merge = Merge::exact([3, 7, 2, 5]);
    let short: Vec<Option<usize>> = [None].into_iter().chain((0..8).map(Some)).collect();
    let odd = [&[None][..], &merge.unlawful_indices()[..]].concat();
    let sets = with_faults(merge, &short, &odd);
    assert_eq!(sets.len(), 180);
    for merge in sets {
        merge.hold();
    }
}

#[test]
fn merges_of_nothing_and_into_longer_lists() {
    let shapes = [
        [0, 0, 2, 5],
        [3, 7, 0, 0],
        [0, 0, 0, 0],
        [1, 0, 1, 0],
        [1, 8, 1, 1],
        [3, 7, 2, 5],
        [0, 0, 0, 4],
    ];
    for shape in shapes {
        Merge::exact(shape).hold();
        Merge::exact(shape).longer().hold();
    }
    // No index is below a count of 0.
    let mut none = Merge::exact([0, 3, 2, 5]);
    none.number = 7;
    none.hold();
}

#[test]
fn merges_whose_counts_wrap() {
    let wraps = [
        0x5555_5555_5555_5555,
        0x5555_5555_5555_5556,
        0x8000_0000_0000_0000,
        0x8000_0000_0000_0001,
        0xaaaa_aaaa_aaaa_aaab,
        0xffff_ffff_ffff_ffff,
    ];
    let (source, target) = (counts(1, 3), counts(2, 5));
    for great in wraps {
        let four = [
            (counts(great, 3), target),
            (counts(1, great), target),
            (source, counts(great, 5)),
            (source, counts(2, great)),
        ];
        for (source, target) in four {
            let merge = Merge {
                source,
                target,
                number: 1,
                ..Merge::exact([1, 3, 2, 5])
            };
            merge.hold();
        }
    }
}

#[test]
fn merges_up_to_65536_vertices_and_past_them() {
    let shapes = [
        [1, 3, 65_535, 3],
        [0, 0, 65_536, 3],
        [65_536, 3, 0, 0],
        [65_535, 3, 1, 3],
        [65_537, 3, 0, 0],
        [0, 0, 65_537, 3],
        [40_000, 3, 25_537, 3],
    ];
    for shape in shapes {
        Merge::exact(shape).hold();
    }
    let one_more = Merge::exact([1, 3, 65_536, 3]);
    let full = Merge {
        lent: needs(65_536, 6),
        ..one_more
    };
    full.hold();
    for merge in [one_more, Merge::exact([65_535, 3, 2, 3])] {
        let sets = with_some_faults(merge);
        assert_eq!(sets.len(), 30);
        for merge in sets {
            merge.hold();
        }
    }
}

#[test]
fn merges_of_more_indices_than_any_build_has() {
    for shape in [[2, 300_000, 1, 4], [2, 4, 1, 300_000]] {
        let sets = with_some_faults(Merge::exact(shape));
        assert_eq!(sets.len(), 30);
        for merge in sets {
            merge.hold();
        }
    }
}

const CORNERS: [f32; 12] = [
    2.0, 0.5, 1.0, 2.0, -1.0, 2.0, -2.0, -0.5, -1.0, -2.0, 1.0, -2.0,
];

const HEIGHT: f32 = 1.7;

/// A face with the default option, or none.
fn plain(given: bool) -> CChoice {
    CChoice { given, option: 255 }
}

/// A column of plain faces on the six corners.
fn column(sides: [bool; 6], top: bool, bottom: bool, subdivisions: u32) -> Column {
    let job = CColumn {
        height: HEIGHT,
        subdivisions: CSubdivisions {
            given: true,
            number: subdivisions,
        },
        sides: sides.map(plain),
        top: plain(top),
        bottom: plain(bottom),
        ..CColumn::default()
    };
    let corner = |k: usize| &CORNERS[2 * (k % 6)..2 * (k % 6) + 2];
    Column {
        job,
        pairs: (0..6)
            .flat_map(|k| [corner(k), corner(k + 1)].concat())
            .collect(),
        corners: CORNERS.to_vec(),
        table: Table::default(),
    }
}

/// Puts a face behind a mesh: points, each its position, normal and uv, and triangles.
fn put(mesh: &mut Mesh, points: &[[f32; 8]], triangles: &[u16]) {
    let first = (mesh.vertices.len() / 3) as u16;
    for point in points {
        mesh.vertices.extend(&point[..3]);
        mesh.normals.extend(&point[3..6]);
        mesh.uvs.extend(&point[6..]);
    }
    mesh.indices.extend(triangles.iter().map(|t| first + t));
}

/// A part of a side, as the scope has it.
fn put_part(mesh: &mut Mesh, ends: &[f32], foot: f32, top: f32) {
    let (left, right) = (&ends[..2], &ends[2..]);
    let (x, z) = (left[0] + right[0], left[1] + right[1]);
    let reciprocal = 1.0 / (x * x + 0.0 + z * z).sqrt();
    let (nx, nz) = (x * reciprocal, z * reciprocal);
    let point = |end: &[f32], y, u, v| [end[0], y, end[1], nx, 0.0, nz, u, v];
    let points = [
        point(right, foot, 1.0, 0.0),
        point(right, top, 1.0, 1.0),
        point(left, top, 0.0, 1.0),
        point(left, foot, 0.0, 0.0),
    ];
    put(mesh, &points, &[2, 1, 0, 0, 3, 2]);
}

const HEXAGON: [u16; 12] = [0, 2, 1, 3, 5, 4, 0, 5, 3, 3, 2, 0];

/// A cap at a height; the bottom has half a turn about z.
fn put_cap(mesh: &mut Mesh, height: f32, is_bottom: bool) {
    let points: Vec<[f32; 8]> = CORNERS
        .chunks(2)
        .map(|corner| {
            let (x, z) = (corner[0], corner[1]);
            let uv = hosirekar_wrap_uv(CVec2 { x, y: z });
            match is_bottom {
                true => [-x, height, z, -0.0, -1.0, 0.0, uv.x, uv.y],
                false => [x, height, z, 0.0, 1.0, 0.0, uv.x, uv.y],
            }
        })
        .collect();
    put(mesh, &points, &HEXAGON);
}

/// The mesh of a column of plain faces, and how many they are.
fn column_mesh(column: &Column) -> (usize, Mesh) {
    let parts = column.job.subdivisions.number.max(1);
    let delta = HEIGHT / parts as f32;
    let (mut mesh, mut faces) = (Mesh::known([0; 4]), 0);
    for (side, ends) in column.job.sides.iter().zip(column.pairs.chunks(4)) {
        for part in (0..parts).filter(|_| side.given) {
            let foot = delta * part as f32;
            put_part(&mut mesh, ends, foot, foot + delta);
            faces += 1;
        }
    }
    for (cap, height, is_bottom) in [
        (column.job.top, HEIGHT, false),
        (column.job.bottom, 0.0, true),
    ] {
        if cap.given {
            put_cap(&mut mesh, height, is_bottom);
            faces += 1;
        }
    }
    (faces, mesh)
}

/// Holds every call of a column to the mesh of so many vertices and indices.
fn hold_column(column: &Column, vertices: usize, indices: usize) {
    let (faces, whole) = column_mesh(column);
    assert_eq!(whole.counts(), counts(vertices, indices));
    let what = format!("{:?}", column.job);
    hold_job(column, faces, &whole, &what);
    // Parts have 4 vertices and 6 indices, and lie before the caps.
    let caps = usize::from(column.job.top.given) + usize::from(column.job.bottom.given);
    let parts = faces - caps;
    for part in [0, parts / 2, parts - 1] {
        let places = [4 * part..4 * part + 4, 6 * part..6 * part + 6];
        hold_face(column, part, &whole, places, &what);
    }
    for cap in 0..caps {
        let (v, i) = (4 * parts + 6 * cap, 6 * parts + 12 * cap);
        hold_face(column, parts + cap, &whole, [v..v + 6, i..i + 12], &what);
    }
}

/// Holds every call of a job to a refusal, with more room than any mesh needs and with none.
fn hold_refused(job: &impl Job, number: u32, what: &str) {
    let room = needs(65_600, 262_400);
    let (mut made, fresh) = (Mesh::known(room), Mesh::known(room));
    assert_eq!(job.plan(), refused(number), "{what}");
    for lengths in [room, [0; 4]] {
        assert_eq!(job.build(made.front(lengths)), refused(number), "{what}");
        for face in [0, 1, 16_384, usize::MAX] {
            let answer = job.face(face, made.front(lengths));
            assert_eq!(answer, refused(number), "{what}: face {face}");
        }
    }
    made.hold(&fresh, what);
}

/// Holds a column to refusal 4, and with a number or a list that is wrong too to the earlier ones.
fn hold_past_the_limit(column: &Column) {
    let what = format!("{:?}", column.job);
    hold_refused(column, 4, &what);
    let mut beyond = column.clone();
    beyond.pairs[23] = f32::NAN;
    hold_refused(&beyond, 2, &what);
    beyond.corners.pop();
    hold_refused(&beyond, 1, &what);
}

#[test]
fn columns_of_six_sides_and_both_caps() {
    for subdivisions in [0, 1] {
        hold_column(&column([true; 6], true, true, subdivisions), 36, 60);
    }
    hold_column(&column([true; 6], true, true, 2_730), 65_532, 98_304);
    for subdivisions in [2_731, u32::MAX] {
        hold_past_the_limit(&column([true; 6], true, true, subdivisions));
    }
}

#[test]
fn columns_of_one_side_and_of_three() {
    for side in 0..6 {
        let one = |subdivisions| {
            let sides = std::array::from_fn(|k| k == side);
            column(sides, false, false, subdivisions)
        };
        hold_column(&one(16_384), 65_536, 98_304);
        hold_past_the_limit(&one(16_385));
    }
    let three = |subdivisions| {
        let sides = [true, false, true, false, true, false];
        column(sides, true, false, subdivisions)
    };
    // With 5,461 parts a side the unchecked crate wraps at 65,538.
    hold_column(&three(5_460), 65_526, 98_292);
    hold_past_the_limit(&three(5_461));
}

#[test]
fn columns_without_a_face() {
    let none = column([false; 6], false, false, u32::MAX);
    hold_job(&none, 0, &Mesh::known([0; 4]), "no face");
}

/// A table of one entry: nothing altered, an inset of the middle.
fn inset(scale: f32, keep: bool) -> Table {
    Table {
        numbers: vec![1.0, 1.0, 0.0, 0.0, 0.0, 0.0, 1.0, 1.0, scale],
        marks: vec![0, 0, 1, u8::from(keep)],
    }
}

/// The triangles of a face of so many corners with an inset.
fn inset_triangles(corners: u16, scale: f32, inner: &[u16], keep: bool) -> Vec<u16> {
    let mut triangles = Vec::new();
    for v in 0..corners {
        let n = (v + 1) % corners;
        let mut two = [[n + corners, n, v], [v, v + corners, n + corners]];
        if scale < 0.0 {
            two.iter_mut().for_each(|triangle| triangle.reverse());
        }
        triangles.extend(two.concat());
    }
    let kept = inner.iter().filter(|_| keep).map(|k| k + corners);
    triangles.extend(kept);
    triangles
}

/// Holds every call of a job of equal faces with insets to its own build, and its indices to these.
fn hold_insets(job: &impl Job, faces: usize, corners: usize, triangles: &[u16], what: &str) {
    let counts = counts(2 * corners * faces, triangles.len() * faces);
    let mut whole = Mesh::known(needs(counts.vertices, counts.indices));
    assert_eq!(job.build(whole.all()), answer(0, counts), "{what}");
    for (face, own) in whole.indices.chunks(triangles.len()).enumerate() {
        let first = (2 * corners * face) as u16;
        let wanted: Vec<u16> = triangles.iter().map(|t| first + t).collect();
        assert_eq!(own, wanted, "{what}: face {face}");
    }
    hold_job(job, faces, &whole, what);
}

#[test]
fn insets_of_planes_and_sides() {
    let quad = [2, 1, 0, 0, 3, 2];
    assert_eq!(
        inset_triangles(4, 0.5, &quad, false)[..6],
        [5, 1, 0, 0, 4, 5]
    );
    assert_eq!(
        inset_triangles(4, -1.0, &quad, false)[..6],
        [0, 1, 5, 5, 4, 0]
    );
    for (scale, keep) in [0.5, -1.0, 0.0, -0.0]
        .into_iter()
        .flat_map(|scale| [(scale, false), (scale, true)])
    {
        let what = format!("an inset by {scale:?}, kept: {keep}");
        let job = CPlane::default();
        let (corners, table) = (CORNERS.to_vec(), inset(scale, keep));
        let plane = Plane {
            job,
            corners,
            table,
        };
        let triangles = inset_triangles(6, scale, &HEXAGON, keep);
        assert_eq!(triangles.len(), if keep { 48 } else { 36 });
        hold_insets(&plane, 1, 6, &triangles, &what);
        let triangles = inset_triangles(4, scale, &quad, keep);
        assert_eq!(triangles.len(), if keep { 30 } else { 24 });
        for parts in [1, 8_192] {
            hold_insets(
                &wall(parts, scale, keep),
                parts as usize,
                4,
                &triangles,
                &what,
            );
        }
        hold_past_the_limit(&wall(8_193, scale, keep));
    }
}

/// One side of so many parts with insets.
fn wall(parts: u32, scale: f32, keep: bool) -> Column {
    let mut wall = column([false; 6], false, false, parts);
    wall.job.sides[2] = CChoice {
        given: true,
        option: 0,
    };
    wall.table = inset(scale, keep);
    wall
}
