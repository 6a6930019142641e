//! Why a wall is there or missing, and what a face's number stands for: by hand, in an operator's words, what is
//! refused, and drawn maps whose faces are named one after another.

mod common;
use common::*;
use hosirekar::*;

/// Two cells side by side, the second beyond side 0 of the first, and nothing beyond the edge.
fn two(heights: [f32; 2]) -> HeightMap {
    let mut cells = vec![cell(heights[0], [0.0, 0.0]), cell(heights[1], [3.0, 2.0])];
    cells[0].neighbours[0] = Some(1);
    cells[1].neighbours[3] = Some(0);
    HeightMap {
        fringe: Fringe::None,
        ..HeightMap::new(CORNERS, cells)
    }
}

/// The same height beyond every side that has no neighbour.
fn fringed(map: HeightMap, height: f32) -> HeightMap {
    HeightMap {
        fringe: Fringe::Heights(vec![[height; 6]; map.cells.len()]),
        ..map
    }
}

fn neighbour(height: f32) -> Reason {
    let beyond = Beyond::Neighbour;
    Reason::AsHigh { beyond, height }
}

fn fringe(height: f32) -> Reason {
    let beyond = Beyond::Fringe;
    Reason::AsHigh { beyond, height }
}

fn present(face: usize) -> Reason {
    Reason::Present { face }
}

fn side(cell: usize, side: usize) -> Face {
    Face::Side { cell, side }
}

fn cap(cell: usize) -> Face {
    Face::Cap { cell }
}

/// The bits of a height, by which 0 and -0 differ.
fn height_bits(reason: Reason) -> Option<u32> {
    match reason {
        Reason::AsHigh { height, .. } => Some(height.to_bits()),
        _ => None,
    }
}

/// Holds a side of a map, and of what it makes ready, to its reason and the plan's counts.
#[track_caller]
fn hold_why(map: &HeightMap, cell: usize, side: usize, reason: Reason) {
    let counts = map.plan().unwrap();
    let wanted = Ok(Why { reason, counts });
    for why in [map.why(cell, side), map.ready().why(cell, side)] {
        assert_eq!(why, wanted, "side {side} of cell {cell}");
        let made = why.unwrap().reason;
        assert_eq!(height_bits(made), height_bits(reason), "{made:?}");
    }
}

/// Holds all sides that are not these to one reason.
#[track_caller]
fn hold_others(map: &HeightMap, but: &[(usize, usize)], reason: Reason) {
    let sides = (0..map.cells.len()).flat_map(|cell| (0..6).map(move |side| (cell, side)));
    for (cell, side) in sides.filter(|at| !but.contains(at)) {
        hold_why(map, cell, side, reason);
    }
}

/// Holds the faces of a map to these, which are all.
#[track_caller]
fn hold_faces(map: &HeightMap, faces: &[Face]) {
    let counts = map.plan().unwrap();
    for (number, face) in faces.iter().enumerate() {
        let face = *face;
        let wanted = Ok(Which { face, counts });
        assert_eq!(map.which(number), wanted, "face {number}");
        assert_eq!(map.ready().which(number), wanted, "face {number}");
    }
    assert_eq!(map.faces(), Ok(faces.len()));
    for number in strays(faces.len()) {
        hold_no_face(map, number, Refusal::NoFace);
    }
}

/// Numbers that are not below `end`, some of which fewer bits would make small.
fn strays(end: usize) -> Vec<usize> {
    let bits = [8, 16, 32, 63].into_iter();
    let mut strays: Vec<usize> = bits
        .flat_map(|bits| [0, 1, 3, 6].map(|near| (1 << bits) + near))
        .collect();
    strays.extend([end, end + 1, end + 4, usize::MAX - 5, usize::MAX]);
    strays
}

#[track_caller]
fn hold_no_why(map: &HeightMap, cell: usize, side: usize, why: Refusal) {
    assert_eq!(map.why(cell, side), Err(why), "side {side} of cell {cell}");
    let ready = map.ready().why(cell, side);
    assert_eq!(ready, Err(why), "side {side} of cell {cell}");
}

#[track_caller]
fn hold_no_face(map: &HeightMap, face: usize, why: Refusal) {
    assert_eq!(map.which(face), Err(why), "face {face}");
    assert_eq!(map.ready().which(face), Err(why), "face {face}");
}

/// Holds every cell, side and face that is not there to a refusal.
fn hold_strays(map: &HeightMap, why: Refusal) {
    for cell in strays(map.cells.len()) {
        (0..6).for_each(|side| hold_no_why(map, cell, side, why));
        hold_no_why(map, cell, 6, why);
    }
    for side in strays(6) {
        (0..map.cells.len()).for_each(|cell| hold_no_why(map, cell, side, why));
    }
    for face in strays(7 * map.cells.len()) {
        hold_no_face(map, face, why);
    }
}

#[test]
fn two_cells_without_a_fringe() {
    let map = two([2.0, 1.0]);
    hold_faces(&map, &[cap(0), side(0, 0), cap(1)]);
    hold_why(&map, 0, 0, present(1));
    hold_why(&map, 1, 3, neighbour(2.0));
    hold_others(&map, &[(0, 0), (1, 3)], Reason::NothingBeyond);
    hold_strays(&map, Refusal::NoFace);
    let off = HeightMap { sides: None, ..map };
    hold_others(&off, &[], Reason::SidesOff);
    hold_others(&fringed(off.clone(), 0.5), &[], Reason::SidesOff);
    hold_faces(&off, &[cap(0), cap(1)]);
    hold_strays(&off, Refusal::NoFace);
}

#[test]
fn two_cells_with_a_fringe() {
    let high = fringed(two([2.0, 1.0]), 2.0);
    hold_why(&high, 0, 0, present(1));
    hold_why(&high, 1, 3, neighbour(2.0));
    hold_others(&high, &[(0, 0), (1, 3)], fringe(2.0));
    let low = fringed(two([2.0, 1.0]), 0.5);
    hold_why(&low, 0, 0, present(1));
    hold_why(&low, 0, 1, present(2));
    hold_why(&low, 1, 3, neighbour(2.0));
    hold_why(&low, 1, 5, present(12));
    let first = (0..6).map(|k| side(0, k));
    let second = [0, 1, 2, 4, 5].map(|k| side(1, k));
    let faces = [cap(0)].into_iter().chain(first);
    let faces: Vec<Face> = faces.chain([cap(1)]).chain(second).collect();
    hold_faces(&low, &faces);
    let bare = HeightMap { caps: None, ..low };
    let walls = faces.into_iter().filter(|face| *face != cap(0));
    let walls: Vec<Face> = walls.filter(|face| *face != cap(1)).collect();
    hold_faces(&bare, &walls);
    hold_why(&bare, 0, 1, present(1));
    hold_why(&bare, 1, 0, present(6));
}

#[test]
fn equal_heights_and_both_zeros_count_as_high() {
    for [own, other] in [[1.0, 1.0], [0.0, -0.0], [-0.0, 0.0], [-0.0, -0.0]] {
        let map = two([own, other]);
        hold_why(&map, 0, 0, neighbour(other));
        hold_why(&map, 1, 3, neighbour(own));
        let lone = HeightMap::new(CORNERS, vec![cell(own, [0.0, 0.0])]);
        hold_others(&fringed(lone, other), &[], fringe(other));
    }
}

/// A cell may be its own neighbour, and be named by one that it does not name.
#[test]
fn neighbours_that_are_not_mutual() {
    let mut map = fringed(two([2.0, 1.0]), 2.0);
    map.cells[0].neighbours = [Some(0), Some(1), None, Some(1), None, None];
    map.cells[1].neighbours = [None; 6];
    hold_why(&map, 0, 0, neighbour(2.0));
    hold_why(&map, 0, 1, present(1));
    hold_why(&map, 0, 2, fringe(2.0));
    hold_why(&map, 0, 3, present(2));
    hold_why(&map, 1, 3, fringe(2.0));
    hold_faces(&map, &[cap(0), side(0, 1), side(0, 3), cap(1)]);
}

#[test]
fn a_lone_cell_and_no_cell() {
    let lone = HeightMap {
        fringe: Fringe::None,
        ..HeightMap::new(CORNERS, vec![cell(2.0, [0.0, 0.0])])
    };
    hold_others(&lone, &[], Reason::NothingBeyond);
    hold_faces(&lone, &[cap(0)]);
    hold_strays(&lone, Refusal::NoFace);
    let none = HeightMap::default();
    hold_faces(&none, &[]);
    hold_strays(&none, Refusal::NoFace);
}

/// The faces of a map by the words of its definition: of each cell the cap, then the sides beyond which it is lower.
fn faces(map: &HeightMap) -> Vec<Face> {
    let mut faces = Vec::new();
    for (k, own) in map.cells.iter().enumerate() {
        faces.extend(map.caps.map(|_| cap(k)));
        let lower = |d: &usize| beyond(map, k, *d).is_some_and(|(_, height)| height < own.height);
        let sides = (0..6).filter(|d| map.sides.is_some() && lower(d));
        faces.extend(sides.map(|d| side(k, d)));
    }
    faces
}

fn beyond(map: &HeightMap, cell: usize, side: usize) -> Option<(Beyond, f32)> {
    match (map.cells[cell].neighbours[side], &map.fringe) {
        (Some(place), _) => Some((Beyond::Neighbour, map.cells[place].height)),
        (None, Fringe::Heights(heights)) => Some((Beyond::Fringe, heights[cell][side])),
        _ => None,
    }
}

/// Holds every side and every face of a map.
fn hold_all(map: &HeightMap) {
    let faces = faces(map);
    hold_faces(map, &faces);
    for k in 0..map.cells.len() {
        for d in 0..6 {
            let number = faces.iter().position(|face| *face == side(k, d));
            let reason = match (beyond(map, k, d), number) {
                _ if map.sides.is_none() => Reason::SidesOff,
                (None, _) => Reason::NothingBeyond,
                (_, Some(face)) => present(face),
                (Some((beyond, height)), None) => Reason::AsHigh { beyond, height },
            };
            hold_why(map, k, d, reason);
        }
    }
}

/// A map of a few heights, so that equal ones meet, with any neighbours.
fn drawn(random: &mut Random) -> HeightMap {
    let heights = [0.0, -0.0, 0.5, 1.0, 1.0, -2.0];
    let (count, mut map) = (1 + random.below(6), HeightMap::default());
    for k in 0..count {
        let mut own = cell(heights[random.below(6)], [3.0 * k as f32, 0.0]);
        let any = |_| Some(random.below(2 * count)).filter(|place| *place < count);
        own.neighbours = [(); 6].map(any);
        map.cells.push(own);
    }
    let fringe = |_| [(); 6].map(|()| heights[random.below(6)]);
    let listed: Vec<[f32; 6]> = (0..count).map(fringe).collect();
    map.fringe = [Fringe::None, Fringe::Heights(listed)][random.below(2)].clone();
    let choices = [None, Some(options(0)), Some(options(1)), Some(options(2))];
    map.caps = choices[random.below(4)];
    map.sides = choices[random.below(4)];
    let custom = |_| CellOptions {
        cap: choices[random.below(4)],
        sides: [(); 6].map(|()| choices[random.below(4)]),
    };
    let customs = (0..count).map(custom).collect();
    map.custom_options = [None, Some(customs)][random.below(2)].clone();
    map
}

#[test]
fn every_side_and_face_of_drawn_maps() {
    hold_all(&heightmap());
    let mut random = Random(0x2545_f491_4f6c_dd1d);
    for _ in 0..300 {
        hold_all(&drawn(&mut random));
    }
}

/// Each in its place, with all later ones beside it.
#[test]
fn the_first_fault_counts() {
    let mut map = HeightMap::new(CORNERS, vec![cell(1.0, [0.0, 0.0]); 10_923]);
    let hold = |map: &HeightMap, why| {
        for (cell, side) in [(0, 0), (10_922, 5), (10_923, 0), (0, 6), (usize::MAX, 6)] {
            hold_no_why(map, cell, side, why);
        }
        for face in [0, 10_922, 10_923, usize::MAX] {
            hold_no_face(map, face, why);
        }
    };
    hold(&map, Refusal::Limit);
    map.sides = None;
    hold(&map, Refusal::Limit);
    map.cells[10_922].neighbours[5] = Some(10_923);
    hold(&map, Refusal::Neighbour);
    map.cells[7].height = 2e6;
    let why = map.plan().unwrap_err();
    assert!(why.to_string().starts_with("cells[7].height is 2000000: "));
    hold(&map, why);
    map.custom_options = Some(vec![]);
    hold(&map, Refusal::Shape);
    // One cap fewer is as many as can be.
    map = HeightMap::new(CORNERS, vec![cell(1.0, [0.0, 0.0]); 10_922]);
    hold_why(&map, 10_921, 5, Reason::NothingBeyond);
    hold_no_why(&map, 10_922, 5, Refusal::NoFace);
    assert_eq!(map.which(10_921).unwrap().face, cap(10_921));
    hold_no_face(&map, 10_922, Refusal::NoFace);
}

#[test]
fn a_bad_neighbour_comes_before_what_is_not_there() {
    for place in [2, 65_536, u32::MAX as usize, usize::MAX] {
        let mut map = two([2.0, 1.0]);
        map.cells[1].neighbours[5] = Some(place);
        hold_strays(&map, Refusal::Neighbour);
        hold_no_why(&map, 0, 0, Refusal::Neighbour);
        hold_no_face(&map, 0, Refusal::Neighbour);
    }
}

#[test]
fn answers_print_in_an_operators_words() {
    let told = |map: &HeightMap, cell, side| map.why(cell, side).unwrap().to_string();
    let map = two([2.0, 1.0]);
    assert_eq!(told(&map, 0, 0), "the wall is there: face 1");
    assert_eq!(told(&map, 1, 3), "the neighbour is as high: 2.0");
    let nothing = "there is no neighbour and no fringe height";
    assert_eq!(told(&map, 0, 1), nothing);
    let named = [0, 1, 2].map(|face| map.which(face).unwrap().to_string());
    let faces = ["the cap of cell 0", "side 0 of cell 0", "the cap of cell 1"];
    assert_eq!(named, faces);
    let low = fringed(two([1.0, 2.0]), 2.0);
    assert_eq!(told(&low, 0, 5), "the fringe is as high: 2.0");
    let last = low.which(2).unwrap().to_string();
    assert_eq!(last, "side 3 of cell 1");
    let off = HeightMap { sides: None, ..low };
    assert_eq!(told(&off, 1, 3), "the sides are off");
    assert_eq!(
        neighbour(-0.0).to_string(),
        "the neighbour is as high: -0.0"
    );
    assert_eq!(fringe(0.125).to_string(), "the fringe is as high: 0.125");
    assert_eq!(Reason::SidesOff.to_string(), "the sides are off");
    assert_eq!(side(1, 3).to_string(), "side 3 of cell 1");
    let beyond = [Beyond::Neighbour, Beyond::Fringe].map(|beyond| beyond.to_string());
    assert_eq!(beyond, ["neighbour", "fringe"]);
}

#[test]
fn a_refusal_names_face_cell_and_side() {
    let words =
        "there is no face, cell or side of that number: count each from 0, and a cell's sides to 5";
    let map = two([2.0, 1.0]);
    let refusals = [
        map.why(2, 0).unwrap_err(),
        map.why(0, 6).unwrap_err(),
        map.which(3).unwrap_err(),
        map.window(3).unwrap_err(),
        plane().window(1).unwrap_err(),
    ];
    for why in refusals {
        assert_eq!((why.to_string(), why.number()), (words.to_string(), 6));
    }
}

#[test]
fn answers_are_copied() {
    fn copied<T: Copy + PartialEq + Send + Sync + 'static>(_: T) {}
    fn hashed<T: Copy + Eq + std::hash::Hash>(_: T) {}
    let map = two([2.0, 1.0]);
    copied(map.why(0, 0));
    hashed(map.which(0));
    hashed(Beyond::Fringe);
}
