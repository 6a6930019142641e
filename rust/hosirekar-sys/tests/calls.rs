//! Calls over the boundary: a worked case, the limits, each refusal, and every field in its place.

mod common;
use common::{done, jobs::Table, needs, no_room, refused, Mesh};
use hosirekar_sys::*;

const UNWRITTEN: f32 = -77.0;
const UNWRITTEN_INDEX: u16 = 7777;

/// Room for so many vertices and indices, filled with a number that no mesh here has.
fn room(vertices: usize, indices: usize) -> Mesh {
    Mesh {
        vertices: vec![UNWRITTEN; 3 * vertices],
        normals: vec![UNWRITTEN; 3 * vertices],
        uvs: vec![UNWRITTEN; 2 * vertices],
        indices: vec![UNWRITTEN_INDEX; indices],
    }
}

/// Room for so many, each list in turn one short, and what a call that needs it all then answers.
fn one_short(vertices: usize, indices: usize) -> impl Iterator<Item = (Mesh, CAnswer)> {
    let lists = room(vertices, indices).one_short().into_iter().enumerate();
    let needed = needs(vertices, indices);
    lists.map(move |(list, short)| (short, no_room(list, needed[list])))
}

/// One entry: nothing altered, and an inset of the middle by a half with its inner face kept.
fn inset() -> Table {
    Table {
        numbers: vec![1.0, 1.0, 0.0, 0.0, 0.0, 0.0, 1.0, 1.0, 0.5],
        marks: vec![0, 0, 1, 1],
    }
}

const CORNERS: [f32; 12] = [
    2.0, 0.0, 1.0, 2.0, -1.0, 2.0, -2.0, 0.0, -1.0, -2.0, 1.0, -2.0,
];

const FACE: CChoice = CChoice {
    given: true,
    option: 255,
};

fn build_column(
    job: CColumn,
    pairs: &[f32],
    corners: &[f32],
    table: &Table,
    to: &mut Mesh,
) -> CAnswer {
    hosirekar_column_build(
        job,
        pairs,
        corners,
        &table.numbers,
        &table.marks,
        &mut to.vertices,
        &mut to.normals,
        &mut to.uvs,
        &mut to.indices,
    )
}

fn column_face(
    job: CColumn,
    pairs: &[f32],
    table: &Table,
    number: usize,
    to: &mut Mesh,
) -> CAnswer {
    hosirekar_column_face(
        job,
        pairs,
        &CORNERS,
        &table.numbers,
        &table.marks,
        number,
        &mut to.vertices,
        &mut to.normals,
        &mut to.uvs,
        &mut to.indices,
    )
}

fn plan_column(job: CColumn) -> CAnswer {
    hosirekar_column_plan(job, &[0.0; 24], &[0.0; 12], &[], &[])
}

fn build_plane(job: CPlane, corners: &[f32], table: &Table, to: &mut Mesh) -> CAnswer {
    hosirekar_plane_build(
        job,
        corners,
        &table.numbers,
        &table.marks,
        &mut to.vertices,
        &mut to.normals,
        &mut to.uvs,
        &mut to.indices,
    )
}

fn plane_face(job: CPlane, number: usize, to: &mut Mesh) -> CAnswer {
    hosirekar_plane_face(
        job,
        &CORNERS,
        &[],
        &[],
        number,
        &mut to.vertices,
        &mut to.normals,
        &mut to.uvs,
        &mut to.indices,
    )
}

fn bits(numbers: &[f32]) -> Vec<u32> {
    numbers.iter().map(|x| x.to_bits()).collect()
}

fn plane() -> CPlane {
    CPlane {
        option: 255,
        ..CPlane::default()
    }
}

/// A column of height 2 with one side and no caps, and the ends of its sides.
fn one_side() -> (CColumn, [f32; 24]) {
    let mut job = CColumn {
        height: 2.0,
        subdivisions: CSubdivisions {
            given: true,
            number: 1,
        },
        ..CColumn::default()
    };
    job.sides[0] = FACE;
    let mut pairs = [0.0; 24];
    pairs[..4].copy_from_slice(&[1.0, 1.0, 1.0, -1.0]);
    (job, pairs)
}

fn all_faces(subdivisions: u32) -> CColumn {
    CColumn {
        height: 1.0,
        subdivisions: CSubdivisions {
            given: true,
            number: subdivisions,
        },
        sides: [FACE; 6],
        top: FACE,
        bottom: FACE,
        ..CColumn::default()
    }
}

#[test]
fn a_column_of_one_side_has_its_bits_and_nothing_past_them() {
    let (job, pairs) = one_side();
    let mut mesh = room(5, 7);
    let answer = build_column(job, &pairs, &[0.0; 12], &Table::default(), &mut mesh);
    assert_eq!(answer, done(4, 6));
    let (one, two, minus) = (0x3f80_0000, 0x4000_0000, 0xbf80_0000);
    let past = UNWRITTEN.to_bits();
    let vertices = [
        one, 0, minus, one, two, minus, one, two, one, one, 0, one, past, past, past,
    ];
    let normals = [one, 0, 0, one, 0, 0, one, 0, 0, one, 0, 0, past, past, past];
    let uvs = [one, 0, one, one, 0, one, 0, 0, past, past];
    assert_eq!(bits(&mesh.vertices), vertices);
    assert_eq!(bits(&mesh.normals), normals);
    assert_eq!(bits(&mesh.uvs), uvs);
    assert_eq!(mesh.indices, [2, 1, 0, 0, 3, 2, UNWRITTEN_INDEX]);
}

#[test]
fn a_plan_reaches_its_limit_and_not_past_it() {
    assert_eq!(plan_column(all_faces(0)), done(36, 60));
    assert_eq!(plan_column(all_faces(1)), done(36, 60));
    assert_eq!(plan_column(all_faces(2730)), done(65532, 98304));
    assert_eq!(plan_column(all_faces(2731)), refused(4));
    let mut one = all_faces(16384);
    one.sides = [CChoice::default(); 6];
    one.sides[3] = FACE;
    one.top.given = false;
    one.bottom.given = false;
    assert_eq!(plan_column(one), done(65536, 98304));
    one.subdivisions.number = 16385;
    assert_eq!(plan_column(one), refused(4));
    one.sides[3].given = false;
    one.subdivisions.number = u32::MAX;
    assert_eq!(plan_column(one), done(0, 0));
}

#[test]
fn a_buffer_one_short_is_refused_and_nothing_is_written() {
    let (job, pairs) = one_side();
    for (short, wanted) in one_short(4, 6) {
        let mut mesh = short.clone();
        let answer = build_column(job, &pairs, &[0.0; 12], &Table::default(), &mut mesh);
        assert_eq!(answer, wanted);
        assert_eq!(mesh, short);
    }
    for (short, wanted) in one_short(6, 12) {
        let mut mesh = short.clone();
        assert_eq!(
            build_plane(plane(), &CORNERS, &Table::default(), &mut mesh),
            wanted
        );
        assert_eq!(plane_face(plane(), 0, &mut mesh), wanted);
        assert_eq!(mesh, short);
    }
}

#[test]
fn each_refusal_has_its_number_and_writes_nothing() {
    let (job, pairs) = one_side();
    let fresh = room(65536, 98304);
    let mut mesh = fresh.clone();
    let table = Table::default();
    assert_eq!(
        build_column(job, &pairs[1..], &[0.0; 12], &table, &mut mesh),
        refused(1)
    );
    assert_eq!(
        build_column(job, &pairs, &[0.0; 11], &table, &mut mesh),
        refused(1)
    );
    let mut unnamed = job;
    unnamed.sides[5] = CChoice {
        given: true,
        option: 0,
    };
    assert_eq!(
        build_column(unnamed, &pairs, &[0.0; 12], &table, &mut mesh),
        refused(1)
    );
    let mut high = job;
    high.height = f32::from_bits(1_000_000f32.to_bits() + 1);
    assert_eq!(
        build_column(high, &pairs, &[0.0; 12], &table, &mut mesh),
        refused(2)
    );
    let far = all_faces(2731);
    assert_eq!(
        build_column(far, &pairs, &[0.0; 12], &table, &mut mesh),
        refused(4)
    );
    assert_eq!(plane_face(plane(), 1, &mut mesh), refused(6));
    assert_eq!(mesh, fresh);
    assert_eq!(merge(&triangle(), [0, 1, 3], &mut mesh), refused(7));
    assert_eq!(mesh, fresh);
    let none = CCounts::default();
    let middle = hosirekar_centroid(none, &[], &[], &[], &[]);
    assert_eq!(
        (middle.answer, middle.centroid),
        (refused(8), CVec3::default())
    );
    let middle = hosirekar_uv_centroid(none, &[], &[], &[], &[]);
    assert_eq!(
        (middle.answer, middle.centroid),
        (refused(8), CVec2::default())
    );
}

#[test]
fn what_is_not_given_is_not_read() {
    let (job, pairs) = one_side();
    let mut odd = job;
    odd.sides[4].option = 9;
    odd.top.option = 9;
    odd.placement.scale.value.x = f32::NAN;
    odd.placement.turn.second.y = f32::INFINITY;
    odd.placement.offset.value.z = 2e6;
    odd.subdivisions = CSubdivisions {
        given: false,
        number: u32::MAX,
    };
    let (mut plain, mut mesh) = (room(4, 6), room(4, 6));
    let answer = build_column(job, &pairs, &[0.0; 12], &Table::default(), &mut plain);
    assert_eq!(
        build_column(odd, &pairs, &[0.0; 12], &Table::default(), &mut mesh),
        answer
    );
    assert_eq!(mesh, plain);
}

/// Every field of a placement another number, so that none can stand in another's place.
fn placement() -> CPlacement {
    let row = |x, y, z| CVec3 { x, y, z };
    CPlacement {
        scale: CChoice3 {
            given: true,
            value: row(2.0, 3.0, 4.0),
        },
        turn: CTurn {
            given: true,
            first: row(1.0, 5.0, 7.0),
            second: row(11.0, 13.0, 17.0),
            third: row(19.0, 23.0, 29.0),
        },
        offset: CChoice3 {
            given: true,
            value: row(100.0, 200.0, 300.0),
        },
    }
}

fn turned(t: CTurn, p: [f32; 3]) -> [f32; 3] {
    [t.first, t.second, t.third].map(|r| r.x * p[0] + r.y * p[1] + r.z * p[2])
}

/// A point placed, at a position; all numbers here are small and whole, so nothing is rounded.
fn placed(at: CVec2, p: [f32; 3]) -> [f32; 3] {
    let s = placement();
    let (scale, offset) = (s.scale.value, s.offset.value);
    let q = turned(s.turn, [p[0] * scale.x, p[1] * scale.y, p[2] * scale.z]);
    [
        q[0] + offset.x + at.x,
        q[1] + offset.y,
        q[2] + offset.z + at.y,
    ]
}

#[test]
fn a_plane_stands_where_every_field_says() {
    let position = CVec2 { x: 40.0, y: 50.0 };
    let job = CPlane {
        position,
        option: 0,
        placement: placement(),
    };
    let mut mesh = room(12, 48);
    assert_eq!(
        build_plane(job, &CORNERS, &inset(), &mut mesh),
        done(12, 48)
    );
    let up = turned(placement().turn, [0.0, 1.0, 0.0]);
    for (k, corner) in CORNERS.chunks(2).enumerate() {
        let at = placed(position, [corner[0], 0.0, corner[1]]);
        assert_eq!(mesh.vertices[3 * k..3 * k + 3], at);
        assert_eq!(mesh.normals[3 * k..3 * k + 3], up);
        let inner = placed(position, [corner[0] / 2.0, 0.0, corner[1] / 2.0]);
        assert_eq!(mesh.vertices[3 * k + 18..3 * k + 21], inner);
        let x = CVec2 {
            x: corner[0],
            y: corner[1],
        };
        let wrapped = hosirekar_wrap_uv(x);
        assert_eq!(mesh.uvs[2 * k..2 * k + 2], [wrapped.x, wrapped.y]);
    }
    assert_eq!(mesh.indices[..6], [7, 1, 0, 0, 6, 7]);
    let plan = hosirekar_plane_plan(job, &CORNERS, &inset().numbers, &inset().marks);
    assert_eq!(plan, done(12, 48));
}

#[test]
fn the_face_of_a_plane_is_the_plane() {
    let (mut whole, mut face) = (room(7, 13), room(7, 13));
    assert_eq!(
        build_plane(plane(), &CORNERS, &Table::default(), &mut whole),
        done(6, 12)
    );
    assert_eq!(plane_face(plane(), 0, &mut face), done(6, 12));
    assert_eq!(face, whole);
    assert_eq!(
        whole.indices,
        [0, 2, 1, 3, 5, 4, 0, 5, 3, 3, 2, 0, UNWRITTEN_INDEX]
    );
}

/// Every field another number, sides 1 and 4 of six, and the counts: two quads, two quads with insets,
/// a hexagon with an inset and a hexagon.
fn odd_column() -> (CColumn, Vec<f32>, CAnswer) {
    let inset = CChoice {
        given: true,
        option: 0,
    };
    let mut job = CColumn {
        height: 8.0,
        subdivisions: CSubdivisions {
            given: true,
            number: 2,
        },
        sides: [CChoice::default(); 6],
        top: inset,
        bottom: FACE,
        position: CVec2 { x: 60.0, y: 70.0 },
        placement: placement(),
    };
    job.sides[1] = FACE;
    job.sides[4] = inset;
    let pairs = (0..24).map(|k| k as f32).collect();
    let counts = done(2 * 4 + 2 * 8 + 12 + 6, 2 * 6 + 2 * 30 + 48 + 12);
    (job, pairs, counts)
}

#[test]
fn a_column_stands_where_every_field_says() {
    let (job, pairs, counts) = odd_column();
    let table = inset();
    let mut mesh = room(counts.vertices, counts.indices);
    assert_eq!(
        build_column(job, &pairs, &CORNERS, &table, &mut mesh),
        counts
    );
    let plan = hosirekar_column_plan(job, &pairs, &CORNERS, &table.numbers, &table.marks);
    assert_eq!(plan, counts);
    let point = |k: usize| &mesh.vertices[3 * k..3 * k + 3];
    // The second part of side 1, the first of side 4, both caps.
    assert_eq!(point(4), placed(job.position, [6.0, 4.0, 7.0]));
    assert_eq!(point(6), placed(job.position, [4.0, 8.0, 5.0]));
    assert_eq!(point(8), placed(job.position, [18.0, 0.0, 19.0]));
    assert_eq!(point(24), placed(job.position, [2.0, 8.0, 0.0]));
    assert_eq!(point(36), placed(job.position, [-2.0, 0.0, 0.0]));
    let down = turned(placement().turn, [0.0, -1.0, 0.0]);
    assert_eq!(mesh.normals[3 * 36..3 * 37], down);
}

#[test]
fn the_faces_of_a_column_in_any_order_are_the_column() {
    let (job, pairs, counts) = odd_column();
    let table = inset();
    let mut whole = room(counts.vertices + 1, counts.indices + 1);
    let mut faces = whole.clone();
    assert_eq!(
        build_column(job, &pairs, &CORNERS, &table, &mut whole),
        counts
    );
    for number in [5, 2, 0, 6, 3, 2, 1, usize::MAX, 4] {
        let wanted = if number < 6 { counts } else { refused(6) };
        assert_ne!(faces, whole);
        assert_eq!(column_face(job, &pairs, &table, number, &mut faces), wanted);
    }
    assert_eq!(faces, whole);
    // The top alone: the fifth face, after four parts of sides.
    let mut top = room(counts.vertices, counts.indices);
    assert_eq!(column_face(job, &pairs, &table, 4, &mut top), counts);
    let (first, past) = (24, 36);
    for (k, x) in top.vertices.iter().enumerate() {
        assert_eq!(*x != UNWRITTEN, (3 * first..3 * past).contains(&k));
    }
    for (short, wanted) in one_short(counts.vertices, counts.indices) {
        let mut mesh = short.clone();
        assert_eq!(column_face(job, &pairs, &table, 0, &mut mesh), wanted);
        assert_eq!(column_face(job, &pairs, &table, 6, &mut mesh), refused(6));
        assert_eq!(mesh, short);
    }
}

#[test]
fn a_cheap_column_has_its_numbers_in_place() {
    let job = CCheapColumn {
        centre: CVec2 { x: 0.5, y: -0.25 },
        height: 3.0,
    };
    assert_eq!(hosirekar_cheap_column_plan(job, &CORNERS), done(12, 48));
    let mut whole = room(13, 49);
    let answer = hosirekar_cheap_column_build(
        job,
        &CORNERS,
        &mut whole.vertices,
        &mut whole.normals,
        &mut whole.uvs,
        &mut whole.indices,
    );
    assert_eq!(answer, done(12, 48));
    assert_eq!(whole.vertices[..3], [2.0, 3.0, 0.0]);
    assert_eq!(whole.vertices[18..21], [2.0, 0.0, 0.0]);
    assert_eq!(whole.vertices[36..], [UNWRITTEN; 3]);
    assert_eq!(whole.normals[..3], [1.5, 0.0, 0.25]);
    assert_eq!(whole.uvs[..2], [1.0, 0.5]);
    assert_eq!(whole.indices[44..], [6, 6, 11, 5, UNWRITTEN_INDEX]);
    let mut face = room(13, 49);
    for (number, wanted) in [(1, refused(6)), (0, done(12, 48))] {
        let answer = hosirekar_cheap_column_face(
            job,
            &CORNERS,
            number,
            &mut face.vertices,
            &mut face.normals,
            &mut face.uvs,
            &mut face.indices,
        );
        assert_eq!(answer, wanted);
        assert_eq!(face == whole, number == 0);
    }
}

/// Three vertices, whose every number is another.
fn triangle() -> Mesh {
    Mesh {
        vertices: (0..9).map(|k| k as f32).collect(),
        normals: (10..19).map(|k| k as f32).collect(),
        uvs: (20..26).map(|k| k as f32).collect(),
        indices: vec![0, 1, 2],
    }
}

const THREE: CCounts = CCounts {
    vertices: 3,
    indices: 3,
};

/// A triangle with these indices, merged onto two vertices and one index.
fn merge(source: &Mesh, indices: [u16; 3], to: &mut Mesh) -> CAnswer {
    hosirekar_merge(
        THREE,
        &source.vertices,
        &source.normals,
        &source.uvs,
        &indices,
        CCounts {
            vertices: 2,
            indices: 1,
        },
        &mut to.vertices,
        &mut to.normals,
        &mut to.uvs,
        &mut to.indices,
    )
}

#[test]
fn a_merge_lays_the_source_after_the_target() {
    let source = triangle();
    let mut mesh = room(6, 5);
    assert_eq!(merge(&source, [2, 0, 1], &mut mesh), done(5, 4));
    let mut wanted = room(6, 5);
    wanted.vertices[6..15].copy_from_slice(&source.vertices);
    wanted.normals[6..15].copy_from_slice(&source.normals);
    wanted.uvs[4..10].copy_from_slice(&source.uvs);
    wanted.indices[1..4].copy_from_slice(&[4, 2, 3]);
    assert_eq!(mesh, wanted);
    for (short, wanted) in one_short(5, 4) {
        let mut mesh = short.clone();
        assert_eq!(merge(&source, [2, 0, 1], &mut mesh), wanted);
        assert_eq!(mesh, short);
    }
    let mut shorter = room(1, 1);
    assert_eq!(merge(&source, [2, 0, 1], &mut shorter), refused(1));
}

#[test]
fn a_stored_mesh_is_scaled_and_moved() {
    let by = CVec3 {
        x: 2.0,
        y: 3.0,
        z: 5.0,
    };
    let counts = CCounts {
        vertices: 2,
        indices: 3,
    };
    let mut m = triangle();
    let answer = hosirekar_scale(counts, by, &mut m.vertices, &m.normals, &m.uvs, &m.indices);
    assert_eq!(answer, done(2, 3));
    assert_eq!(m.vertices, [0.0, 3.0, 10.0, 6.0, 12.0, 25.0, 6.0, 7.0, 8.0]);
    let mut m = triangle();
    let answer = hosirekar_offset(counts, by, &mut m.vertices, &m.normals, &m.uvs, &m.indices);
    assert_eq!(answer, done(2, 3));
    assert_eq!(m.vertices, [2.0, 4.0, 7.0, 5.0, 7.0, 10.0, 6.0, 7.0, 8.0]);
    let mut m = triangle();
    let by = CVec2 { x: 2.0, y: 3.0 };
    let answer =
        hosirekar_texture_scale(counts, by, &m.vertices, &m.normals, &mut m.uvs, &m.indices);
    assert_eq!(answer, done(2, 3));
    assert_eq!(m.uvs, [40.0, 63.0, 44.0, 69.0, 24.0, 25.0]);
}

#[test]
fn a_stored_mesh_is_refused_whole() {
    let far = CVec3 {
        x: 1.0,
        y: 1.0,
        z: f32::NAN,
    };
    let mut m = triangle();
    let answer = hosirekar_scale(THREE, far, &mut m.vertices, &m.normals, &m.uvs, &m.indices);
    assert_eq!(answer, refused(2));
    let answer = hosirekar_offset(THREE, far, &mut m.vertices, &m.normals, &m.uvs, &m.indices);
    assert_eq!(answer, refused(2));
    let more = CCounts {
        vertices: usize::MAX,
        indices: usize::MAX,
    };
    let by = CVec2 { x: 1.0, y: 1.0 };
    let answer = hosirekar_texture_scale(more, by, &m.vertices, &m.normals, &mut m.uvs, &m.indices);
    assert_eq!(answer, refused(1));
    assert_eq!(m, triangle());
}

#[test]
fn a_stored_mesh_has_its_middle() {
    let m = triangle();
    let middle = hosirekar_centroid(THREE, &m.vertices, &m.normals, &m.uvs, &m.indices);
    let at = CVec3 {
        x: 3.0,
        y: 4.0,
        z: 5.0,
    };
    assert_eq!((middle.answer, middle.centroid), (done(3, 3), at));
    let middle = hosirekar_uv_centroid(THREE, &m.vertices, &m.normals, &m.uvs, &m.indices);
    let at = CVec2 { x: 22.0, y: 23.0 };
    assert_eq!((middle.answer, middle.centroid), (done(3, 3), at));
}

#[test]
fn a_uv_is_altered_by_every_field() {
    let options = CUvOptions {
        scale: CVec2 { x: 2.0, y: 3.0 },
        offset: CVec2 { x: 0.5, y: 0.25 },
        min: CVec2 { x: 1.0, y: 2.0 },
        max: CVec2 { x: 5.0, y: 10.0 },
        flip: CFlip { u: true, v: false },
    };
    let uv = CVec2 { x: 0.25, y: 0.5 };
    let altered = hosirekar_alter_uv(options, uv);
    assert_eq!(altered, CVec2 { x: 9.0, y: 16.0 });
    let origin = hosirekar_wrap_uv(CVec2::default());
    assert_eq!(origin, CVec2 { x: 0.5, y: 0.5 });
}

#[test]
fn numbers_are_rounded_once() {
    let root = hosirekar_root(f32::from_bits(1));
    assert_eq!(root.to_bits(), 0x1a35_04f3);
    let a = f32::from_bits(0x3f80_0001);
    let fused = hosirekar_fused(a, a, f32::from_bits(0xbf80_0002));
    assert_eq!(fused.to_bits(), 0x2880_0000);
}
