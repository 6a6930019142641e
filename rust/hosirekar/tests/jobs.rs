//! Jobs: the worked case, the limits, faces in any order, lent lists, and every field in its place.

mod common;
use common::*;
use hosirekar::*;
use hosirekar_sys::{
    hosirekar_cheap_column_build, hosirekar_column_build, hosirekar_heightmap_build,
    hosirekar_plane_build, CCheapColumn, CChoice, CChoice3, CColumn, CHeightMap, COrigin,
    CPlacement, CPlane, CRange, CSubdivisions, CTurn, CVec2, CVec3,
};

fn floats<const N: usize>(rows: &[[u32; N]]) -> Vec<u32> {
    rows.as_flattened().to_vec()
}

#[test]
fn a_column_of_one_side_has_the_bits_of_the_worked_case() {
    let mut sides = [None; 6];
    sides[0] = Some(FaceOptions::default());
    let mut column = Column {
        height: f32::from_bits(0x4000_0000),
        subdivisions: Some(1),
        sides,
        top: None,
        bottom: None,
        ..Column::default()
    };
    column.side_ends[0] =
        [[0x3f80_0000, 0x3f80_0000], [0x3f80_0000, 0xbf80_0000]].map(|end| end.map(f32::from_bits));
    let (one, minus, two) = (0x3f80_0000, 0xbf80_0000, 0x4000_0000);
    let vertices = [
        [one, 0, minus],
        [one, two, minus],
        [one, two, one],
        [one, 0, one],
    ];
    let wanted = (
        floats(&vertices),
        floats(&[[one, 0, 0]; 4]),
        floats(&[[one, 0], [one, one], [0, one], [0, 0]]),
        vec![2, 1, 0, 0, 3, 2],
    );
    assert_eq!(bits(&column.build().unwrap()), wanted);
}

/// Six plain sides and both caps.
fn parts(subdivisions: Option<u32>) -> Column {
    Column {
        subdivisions,
        ..Column::new(CORNERS, 1.0)
    }
}

#[test]
fn the_greatest_column_is_built_and_the_next_is_refused() {
    for subdivisions in [None, Some(0), Some(1)] {
        let counts = Counts {
            vertices: 36,
            indices: 60,
        };
        assert_eq!(parts(subdivisions).plan(), Ok(counts));
    }
    let counts = Counts {
        vertices: 65_532,
        indices: 98_304,
    };
    let greatest = parts(Some(2_730));
    assert_eq!(greatest.plan(), Ok(counts));
    let mesh = greatest.build().unwrap();
    assert_eq!(mesh.counts(), Ok(counts));
    assert_eq!(mesh.indices.iter().max(), Some(&65_531));
    for above in [2_731, u32::MAX] {
        assert_eq!(parts(Some(above)).plan(), Err(Refusal::Limit));
        assert_eq!(parts(Some(above)).build(), Err(Refusal::Limit));
    }
}

#[test]
fn the_last_vertex_number_is_reached_and_not_passed() {
    let wall = |subdivisions| Column {
        sides: std::array::from_fn(|side| (side == 0).then_some(FaceOptions::new())),
        top: None,
        bottom: None,
        ..parts(Some(subdivisions))
    };
    let mesh = wall(16_384).build().unwrap();
    assert_eq!((mesh.vertices.len(), mesh.indices.len()), (65_536, 98_304));
    assert_eq!(mesh.indices.iter().max(), Some(&65_535));
    assert_eq!(wall(16_385).build(), Err(Refusal::Limit));
    let three = Column {
        sides: std::array::from_fn(|side| (side < 3).then_some(FaceOptions::new())),
        bottom: None,
        ..parts(Some(5_461))
    };
    assert_eq!(three.build(), Err(Refusal::Limit));
    let none = Column {
        sides: [None; 6],
        ..wall(u32::MAX)
    };
    assert_eq!(none.build(), Ok(Mesh::default()));
}

/// The faces of a job, counted by asking for each.
fn faces(job: &impl Job) -> usize {
    let mut mesh = job.build().unwrap();
    let exists = |face: &usize| job.build_face(*face, &mut mesh.buffers()).is_ok();
    (0..).take_while(exists).count()
}

fn faces_in_any_order_are_the_whole(job: &impl Job, count: usize) {
    assert_eq!((faces(job), job.faces()), (count, Ok(count)));
    let counts = job.plan().unwrap();
    let whole = bits(&job.build().unwrap());
    let mut random = Random(0x9e37_79b9_7f4a_7c15);
    for _ in 0..200 {
        let mut order: Vec<usize> = (0..count).collect();
        // Repeats, and calls that are refused.
        order.extend((0..count).map(|_| random.below(count)));
        order.extend((0..3).map(|_| count + random.below(9)));
        for k in (1..order.len()).rev() {
            order.swap(k, random.below(k + 1));
        }
        let mut mesh = filled(counts.vertices, counts.indices);
        for face in order {
            let wanted = if face < count {
                Ok(counts)
            } else {
                Err(Refusal::NoFace)
            };
            assert_eq!(job.build_face(face, &mut mesh.buffers()), wanted);
        }
        assert_eq!(bits(&mesh), whole);
    }
}

#[test]
fn faces_in_any_order_with_repeats_are_the_whole() {
    faces_in_any_order_are_the_whole(&column(), 20);
    let some = Column {
        sides: [None, Some(options(1)), None, None, Some(options(2)), None],
        bottom: None,
        rotation: None,
        ..column()
    };
    faces_in_any_order_are_the_whole(&some, 7);
    faces_in_any_order_are_the_whole(&plane(), 1);
    faces_in_any_order_are_the_whole(&cheap_column(), 1);
    // Of eighteen sides, seven are no higher than what lies beyond them.
    faces_in_any_order_are_the_whole(&heightmap(), 3 + 11);
    faces_in_any_order_are_the_whole(&heightmap().ready(), 3 + 11);
}

/// Each face is written to its window and to nothing else, and windows lie end to end.
fn a_face_writes_its_window(job: &impl Job, faces: usize) {
    assert_eq!(job.faces(), Ok(faces));
    let counts = job.plan().unwrap();
    let (whole, empty) = (
        job.build().unwrap(),
        filled(counts.vertices, counts.indices),
    );
    let mut end = Window::default();
    for face in 0..faces {
        let mut mesh = empty.clone();
        job.build_face(face, &mut mesh.buffers()).unwrap();
        let window = job.window(face).unwrap();
        let (v, i) = (window.vertices.clone(), window.indices.clone());
        assert_eq!((v.start, i.start), (end.vertices.end, end.indices.end));
        assert!(!v.is_empty() && !i.is_empty());
        let own = |index: &u16| v.contains(&usize::from(*index));
        assert!(whole.indices[i.clone()].iter().all(own));
        let mut wanted = empty.clone();
        wanted.vertices[v.clone()].copy_from_slice(&whole.vertices[v.clone()]);
        wanted.normals[v.clone()].copy_from_slice(&whole.normals[v.clone()]);
        wanted.uvs[v.clone()].copy_from_slice(&whole.uvs[v]);
        wanted.indices[i.clone()].copy_from_slice(&whole.indices[i]);
        assert_eq!(bits(&mesh), bits(&wanted));
        end = window;
    }
    let all = (counts.vertices, counts.indices);
    assert_eq!((end.vertices.end, end.indices.end), all);
    for none in [faces, usize::MAX] {
        assert_eq!(job.window(none), Err(Refusal::NoFace));
    }
}

#[test]
fn a_face_writes_its_own_places_alone() {
    a_face_writes_its_window(&column(), 20);
    a_face_writes_its_window(&heightmap(), 14);
    a_face_writes_its_window(&heightmap().ready(), 14);
    a_face_writes_its_window(&plane(), 1);
    a_face_writes_its_window(&cheap_column(), 1);
    // No face at all.
    a_face_writes_its_window(&HeightMap::default(), 0);
}

fn what_lies_past_the_counts_stays(job: &impl Job) {
    let counts = job.plan().unwrap();
    let whole = job.build().unwrap();
    let mut wanted = filled(counts.vertices + 5, counts.indices + 7);
    // The four lists need not be equally long.
    wanted.normals.push([-77.0; 3]);
    wanted.uvs.pop();
    let mut mesh = wanted.clone();
    wanted.vertices[..counts.vertices].copy_from_slice(&whole.vertices);
    wanted.normals[..counts.vertices].copy_from_slice(&whole.normals);
    wanted.uvs[..counts.vertices].copy_from_slice(&whole.uvs);
    wanted.indices[..counts.indices].copy_from_slice(&whole.indices);
    let mut faces = mesh.clone();
    assert_eq!(job.build_into(&mut mesh.buffers()), Ok(counts));
    assert_eq!(bits(&mesh), bits(&wanted));
    assert_eq!(job.build_face(0, &mut faces.buffers()), Ok(counts));
    assert_eq!(faces.vertices[counts.vertices..], [[-77.0; 3]; 5]);
    assert_eq!(faces.indices[counts.indices..], [7777; 7]);
}

#[test]
fn longer_lists_keep_what_lies_past_the_counts() {
    what_lies_past_the_counts_stays(&plane());
    what_lies_past_the_counts_stays(&column());
    what_lies_past_the_counts_stays(&cheap_column());
    what_lies_past_the_counts_stays(&heightmap());
}

fn vec2([x, y]: [f32; 2]) -> CVec2 {
    CVec2 { x, y }
}

fn vec3([x, y, z]: [f32; 3]) -> CVec3 {
    CVec3 { x, y, z }
}

fn placement() -> CPlacement {
    let given = |value| CChoice3 { given: true, value };
    CPlacement {
        scale: given(vec3(SCALE)),
        turn: CTurn {
            given: true,
            first: vec3(ROTATION[0]),
            second: vec3(ROTATION[1]),
            third: vec3(ROTATION[2]),
        },
        offset: given(vec3(OFFSET)),
    }
}

/// The table of the first eight options, written out by the order that the archive documents.
fn table() -> (Vec<f32>, Vec<u8>) {
    let (mut numbers, mut marks) = (Vec::new(), Vec::new());
    for n in 0..8u8 {
        let x = f32::from(n);
        let inset = if n % 4 > 0 { 0.25 + x / 64.0 } else { 0.0 };
        numbers.extend([0.125, 0.25, 0.375, 0.5, 0.625, 0.75, 10.875, 11.0].map(|y| x + y));
        numbers.push(inset);
        let flips = [u8::from(n % 2 == 1), u8::from(n % 3 == 1)];
        marks.extend(flips);
        marks.extend(match n % 4 {
            0 => [0, 0],
            1 => [1, 0],
            _ => [2, u8::from(n % 2 == 0)],
        });
    }
    (numbers, marks)
}

#[test]
fn every_field_of_a_column_arrives_in_its_place() {
    let choice = |option| CChoice {
        given: true,
        option,
    };
    let job = CColumn {
        height: 8.0,
        subdivisions: CSubdivisions {
            given: true,
            number: 3,
        },
        sides: [0, 1, 2, 3, 4, 5].map(choice),
        top: choice(6),
        bottom: choice(7),
        position: vec2([60.0, 70.0]),
        placement: placement(),
    };
    let ends: Vec<f32> = (0..6)
        .flat_map(|k| [CORNERS[k], CORNERS[(k + 1) % 6]].concat())
        .collect();
    let (numbers, marks) = table();
    let counts = column().plan().unwrap();
    let mut mesh = filled(counts.vertices, counts.indices);
    let answer = hosirekar_column_build(
        job,
        &ends,
        CORNERS.as_flattened(),
        &numbers,
        &marks,
        mesh.vertices.as_flattened_mut(),
        mesh.normals.as_flattened_mut(),
        mesh.uvs.as_flattened_mut(),
        &mut mesh.indices,
    );
    assert_eq!(answer.number, 0);
    assert_eq!(bits(&column().build().unwrap()), bits(&mesh));
}

#[test]
fn every_field_of_a_plane_arrives_in_its_place() {
    let job = CPlane {
        position: vec2([40.0, 50.0]),
        option: 2,
        placement: placement(),
    };
    let (numbers, marks) = table();
    let mut mesh = filled(12, 48);
    let answer = hosirekar_plane_build(
        job,
        CORNERS.as_flattened(),
        &numbers,
        &marks,
        mesh.vertices.as_flattened_mut(),
        mesh.normals.as_flattened_mut(),
        mesh.uvs.as_flattened_mut(),
        &mut mesh.indices,
    );
    assert_eq!((answer.vertices, answer.indices), (12, 48));
    assert_eq!(bits(&plane().build().unwrap()), bits(&mesh));
}

#[test]
fn every_field_of_a_cheap_column_arrives_in_its_place() {
    let job = CCheapColumn {
        centre: vec2([0.5, -0.25]),
        height: 3.0,
    };
    let mut mesh = filled(12, 48);
    let answer = hosirekar_cheap_column_build(
        job,
        CORNERS.as_flattened(),
        mesh.vertices.as_flattened_mut(),
        mesh.normals.as_flattened_mut(),
        mesh.uvs.as_flattened_mut(),
        &mut mesh.indices,
    );
    assert_eq!((answer.vertices, answer.indices), (12, 48));
    assert_eq!(bits(&cheap_column().build().unwrap()), bits(&mesh));
}

/// The cells of [`heightmap`] as the archive documents them: height, position, and the ends of sides.
fn cells() -> Vec<f32> {
    let of = |height: f32, x: f32, z: f32| {
        let mut numbers = vec![height, x, z];
        for side in 0..6 {
            let ([a, b], [c, d]) = (CORNERS[side], CORNERS[(side + 1) % 6]);
            numbers.extend([x + a, z + b, x + c, z + d]);
        }
        numbers
    };
    [of(8.0, 0.0, 0.0), of(5.0, 3.0, 2.0), of(6.0, 0.0, 4.0)].concat()
}

/// [`heightmap`] as the archive documents it, with the table of the first eight options.
fn c_heightmap() -> CHeightMap {
    let choice = |option| CChoice {
        given: true,
        option,
    };
    CHeightMap {
        caps: choice(2),
        sides: choice(0),
        customs: true,
        fringe: 2,
        range: CRange {
            given: true,
            min: 1.0,
            max: 9.0,
        },
        origin: COrigin {
            given: true,
            at: vec2([80.0, 90.0]),
        },
        placement: placement(),
    }
}

#[test]
fn every_field_of_a_map_arrives_in_its_place() {
    let no = u32::MAX;
    let neighbours = [
        [1, 2, no, no, no, no],
        [no, no, 2, 0, no, no],
        [no, no, no, no, 0, 1],
    ];
    let fringe = [
        [0.0, 1.0, 2.0, 8.0, 4.0, 5.0],
        [1.0, 5.0, 2.0, 3.0, 4.0, 9.0],
        [0.0, 2.0, 6.0, 3.0, 1.0, 1.0],
    ];
    let customs = [
        [3, 1, 255, 2, 255, 255, 4],
        [255; 7],
        [255, 255, 5, 255, 255, 6, 7],
    ];
    let (numbers, marks) = table();
    let counts = heightmap().plan().unwrap();
    let mut mesh = filled(counts.vertices, counts.indices);
    let answer = hosirekar_heightmap_build(
        c_heightmap(),
        &cells(),
        neighbours.as_flattened(),
        fringe.as_flattened(),
        customs.as_flattened(),
        CORNERS.as_flattened(),
        &numbers,
        &marks,
        mesh.vertices.as_flattened_mut(),
        mesh.normals.as_flattened_mut(),
        mesh.uvs.as_flattened_mut(),
        &mut mesh.indices,
    );
    assert_eq!(answer.number, 0);
    assert_eq!(bits(&heightmap().build().unwrap()), bits(&mesh));
}

#[test]
fn what_is_left_out_changes_nothing() {
    let bare = Plane::new(CORNERS);
    let still = Plane {
        scale: Some([1.0; 3]),
        rotation: Some([[1.0, 0.0, 0.0], [0.0, 1.0, 0.0], [0.0, 0.0, 1.0]]),
        offset: Some([0.0; 3]),
        ..bare
    };
    assert_eq!(bare.build(), still.build());
    let plain = Column::new(CORNERS, 2.0);
    assert_eq!(plain.build().unwrap().vertices[1], [1.0, 2.0, 2.0]);
    let moved = Column {
        offset: Some([0.0, 1.0, 0.0]),
        ..plain
    };
    assert_eq!(moved.build().unwrap().vertices[1], [1.0, 3.0, 2.0]);
}

#[test]
fn position_offset_and_origin_are_added_after_the_turn() {
    // (x, y, z) becomes (x, -z, y), so that z is up.
    let rotation = Some([[1.0, 0.0, 0.0], [0.0, 0.0, -1.0], [0.0, 1.0, 0.0]]);
    let offset = Some([1.0, 2.0, 3.0]);
    let plane = Plane {
        position: [10.0, 20.0],
        rotation,
        offset,
        ..Plane::new(CORNERS)
    };
    let mesh = plane.build().unwrap();
    assert_eq!(mesh.vertices[1], [1.0 + 11.0, -2.0 + 2.0, 0.0 + 23.0]);
    assert_eq!(mesh.normals[1], [0.0, 0.0, 1.0]);
    let map = HeightMap {
        origin: Some([10.0, 20.0]),
        rotation,
        offset,
        ..HeightMap::new(CORNERS, vec![cell(5.0, [7.0, 8.0])])
    };
    // The cell's own position is part of the map and turns with it.
    let mesh = map.build().unwrap();
    assert_eq!(mesh.vertices[1], [8.0 + 11.0, -10.0 + 2.0, 5.0 + 23.0]);
}

/// Options that differ in the sign of their zeros alone, which a u of 0 shows.
fn turned_about(zero: f32) -> FaceOptions {
    let mut options = FaceOptions::default();
    options.uv.scale_factor = [-1.0; 2];
    options.uv.offset = [zero; 2];
    options.uv.rect.min = [zero; 2];
    options
}

fn flipped(mut options: FaceOptions) -> FaceOptions {
    options.uv.flip[0] = true;
    options
}

#[test]
fn faces_keep_their_own_options() {
    // With each, what the u of 0 of a side's last vertex becomes.
    let given = [
        (FaceOptions::default(), 0.0),
        (flipped(FaceOptions::default()), 1.0),
        (turned_about(0.0), 0.0),
        (turned_about(-0.0), -0.0),
        (flipped(turned_about(-0.0)), -1.0),
        (flipped(turned_about(-0.0)), -1.0_f32),
    ];
    let bare = Column {
        sides: [None; 6],
        top: None,
        bottom: None,
        ..Column::new(CORNERS, 1.0)
    };
    let all = Column {
        sides: given.map(|(options, _)| Some(options)),
        ..bare
    };
    let (_, _, uvs, _) = bits(&all.build().unwrap());
    for (side, (options, last)) in given.into_iter().enumerate() {
        let mut alone = bare;
        alone.sides[side] = Some(options);
        let (_, _, own, _) = bits(&alone.build().unwrap());
        assert_eq!(uvs[8 * side..8 * side + 8], own);
        assert_eq!(own[6], last.to_bits());
    }
}

#[test]
fn a_uv_is_altered_in_order() {
    let options = UVOptions {
        scale_factor: [2.0, 3.0],
        flip: [true, false],
        offset: [0.5, 0.25],
        rect: Rect {
            min: [1.0, 2.0],
            max: [5.0, 10.0],
        },
    };
    assert_eq!(options.alter_uv([0.25, 0.5]), [9.0, 16.0]);
    assert_eq!(UVOptions::default().alter_uv([0.25, 0.5]), [0.25, 0.5]);
    assert_eq!(FaceOptions::new(), FaceOptions::default());
    assert_eq!(Rect::default(), UVOptions::new().rect);
}
