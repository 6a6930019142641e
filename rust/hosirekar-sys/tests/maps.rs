//! Height maps at their limits, which sides stand, and faults beside each other: the first in the order
//! 1, 2, 3, 4, 6, 51 to 54 gives the number, and every place of the lists stays as it was.

mod common;
use common::faults::*;
use common::jobs::{HeightMap, Job, Table};
use common::whys::{is_same_why, no_which, no_why};
use common::*;
use hosirekar_sys::*;

const NOBODY: u32 = u32::MAX;
const ON: CChoice = CChoice {
    given: true,
    option: 255,
};
const OFF: CChoice = CChoice {
    given: false,
    option: 255,
};

/// So many cells of height 1 in a row, with nothing about them, caps and sides off.
fn cells(n: usize) -> HeightMap {
    let mut cells = vec![0.5; 27 * n];
    for k in 0..n {
        cells[27 * k] = 1.0;
        cells[27 * k + 1] = (k % 256) as f32;
        cells[27 * k + 2] = (k / 256) as f32;
        for side in 0..6 {
            let x = side as f32;
            cells[27 * k + 3 + 4 * side..][..4].copy_from_slice(&[x, 1.0, x, 2.0]);
        }
    }
    HeightMap {
        job: CHeightMap {
            caps: OFF,
            sides: OFF,
            fringe: 1,
            ..CHeightMap::default()
        },
        cells,
        neighbours: vec![NOBODY; 6 * n],
        fringe: vec![],
        customs: vec![],
        corners: vec![
            2.0, 0.0, 1.0, 2.0, -1.0, 2.0, -2.0, 0.0, -1.0, -2.0, 1.0, -2.0,
        ],
        table: Table::default(),
    }
}

fn caps(n: usize) -> HeightMap {
    let mut map = cells(n);
    map.job.caps = ON;
    map
}

/// So many walls of cells without a cap: a fringe at height 0, and at the cell's own where no wall is wanted.
fn walls(n: usize) -> HeightMap {
    let count = n.div_ceil(6);
    let mut map = cells(count);
    map.job.sides = ON;
    map.job.fringe = 2;
    map.fringe = (0..6 * count)
        .map(|side| if side < n { 0.0 } else { 1.0 })
        .collect();
    map
}

/// Every sort of call, in lists with room for so much, and in empty ones.
fn hold_refused(map: &HeightMap, number: u32, room: Lengths, what: &str) {
    assert_eq!(map.plan(), refused(number), "{what}: plan");
    hold_nothing_told(map, number, what);
    for lengths in [room, [0; 4]] {
        let known = Mesh::known(lengths);
        let mut mesh = known.clone();
        assert_eq!(map.build(mesh.all()), refused(number), "{what}: build");
        for at in [0, 1, usize::MAX] {
            let answer = map.face(at, mesh.all());
            assert_eq!(answer, refused(number), "{what}: face {at}");
        }
        mesh.hold(&known, what);
    }
}

/// What is told of walls and faces, there or not.
fn hold_nothing_told(map: &HeightMap, number: u32, what: &str) {
    for (cell, side) in [(0, 0), (0, 6), (usize::MAX, 0)] {
        let why = map.why(cell, side);
        assert!(is_same_why(why, no_why(number)), "{what}: {why:?}");
    }
    for face in [0, usize::MAX] {
        assert_eq!(map.which(face), no_which(number), "{what}: face {face}");
    }
}

/// The plan, the whole build, and the first and the last face alone, each in its own places.
fn hold_done(map: &HeightMap, faces: usize, vertices: usize, indices: usize, what: &str) {
    let answer = done(vertices, indices);
    assert_eq!(map.plan(), answer, "{what}: plan");
    let room = longer(needs(vertices, indices));
    let known = Mesh::known(room);
    let mut whole = known.clone();
    assert_eq!(map.build(whole.all()), answer, "{what}: build");
    let (each, triangles) = (vertices / faces, indices / faces);
    for (place, index) in whole.indices[..indices].iter().enumerate() {
        let own = place / triangles;
        assert_eq!(usize::from(*index) / each, own, "{what}: index {place}");
    }
    for face in [0, faces - 1] {
        let mut alone = known.clone();
        assert_eq!(map.face(face, alone.all()), answer, "{what}: face {face}");
        let vertices = face * each..(face + 1) * each;
        let indices = face * triangles..(face + 1) * triangles;
        let wanted = known.clone().with_places(&whole, [vertices, indices]);
        alone.hold(&wanted, format_args!("{what}: face {face}"));
    }
    hold_no_room(map, faces, needs(vertices, indices), what);
}

/// Each list one short, for the build and for a face; a number of no face comes before that.
fn hold_no_room(map: &HeightMap, faces: usize, exact: Lengths, what: &str) {
    let room = longer(exact);
    let known = Mesh::known(room);
    let mut mesh = known.clone();
    let answer = map.face(faces, mesh.all());
    assert_eq!(answer, refused(6), "{what}: face {faces}");
    for list in 0..4 {
        let what = format!("{what}: list {list} short");
        let (short, wanted) = (shortened(room, exact, list), no_room(list, exact[list]));
        assert_eq!(map.build(mesh.front(short)), wanted, "{what}");
        assert_eq!(map.face(0, mesh.front(short)), wanted, "{what}");
        let answer = map.face(faces, mesh.front(short));
        assert_eq!(answer, refused(6), "{what}: face {faces}");
    }
    mesh.hold(&known, what);
}

#[test]
fn as_many_as_can_be() {
    hold_done(&caps(10_922), 10_922, 65_532, 131_064, "10,922 caps");
    hold_done(&walls(16_384), 16_384, 65_536, 98_304, "16,384 walls");
    let bare = cells(65_536);
    assert_eq!(bare.plan(), done(0, 0), "65,536 cells");
    let mut mesh = Mesh::known([0; 4]);
    assert_eq!(bare.build(mesh.all()), done(0, 0), "65,536 cells");
    assert_eq!(bare.face(0, mesh.all()), refused(6), "65,536 cells");
}

#[test]
fn one_more() {
    let all = needs(65_536, 262_144);
    hold_refused(&caps(10_923), 4, all, "10,923 caps");
    hold_refused(&walls(16_385), 4, all, "16,385 walls");
    hold_refused(&cells(65_537), 1, all, "65,537 cells");
}

/// A side stands where the height beyond it is below the cell's, and nowhere else.
#[test]
fn which_sides_stand() {
    let mut map = cells(2);
    map.job.sides = ON;
    map.neighbours[0] = 1;
    map.neighbours[9] = 0;
    assert_eq!(map.plan(), done(0, 0), "equal neighbours");
    map.cells[27] = 0.0;
    assert_eq!(map.plan(), done(4, 6), "the neighbour is 1 lower");
    map.cells[27] = 2.0;
    assert_eq!(
        map.plan(),
        done(4, 6),
        "the cell is 1 lower than its neighbour"
    );
    map.neighbours[9] = NOBODY;
    assert_eq!(map.plan(), done(0, 0), "one-sided");
    map.job.fringe = 2;
    map.fringe = vec![1.0; 12];
    assert_eq!(map.plan(), done(24, 36), "the fringe about the higher cell");
    map.job.sides = OFF;
    assert_eq!(map.plan(), done(0, 0), "sides off");
}

/// A number of the order, what is wrong, and what makes it so.
type Wrong = (u32, &'static str, fn(&mut HeightMap));

/// What can be wrong with a map of caps.
fn wrongs() -> [Wrong; 13] {
    [
        (1, "a fringe that means nothing", |m| m.job.fringe = 0),
        (1, "a number too few", |m| {
            m.cells.pop();
        }),
        (1, "a neighbour too few", |m| {
            m.neighbours.pop();
        }),
        (1, "a fringe height too many", |m| {
            m.job.fringe = 2;
            m.fringe = vec![0.0; m.neighbours.len() + 1];
        }),
        (1, "a custom number too few", |m| {
            m.job.customs = true;
            m.customs = vec![255; m.neighbours.len() / 6 * 7 - 1];
        }),
        (1, "a custom number of no entry, with its face off", |m| {
            m.job.customs = true;
            m.job.sides = OFF;
            m.customs = vec![255; m.neighbours.len() / 6 * 7];
            m.customs[1] = 0;
        }),
        (1, "a corner too many", |m| m.corners.push(0.0)),
        (2, "a height", |m| m.cells[0] = f32::NAN),
        (2, "an end of a side that does not stand", |m| {
            m.cells[26] = 1_000_001.0
        }),
        (2, "a fringe height that is not used", |m| {
            m.job.fringe = 2;
            m.fringe = vec![0.0; m.neighbours.len()];
            m.fringe[0] = f32::INFINITY;
            m.neighbours[0] = 0;
        }),
        (3, "a neighbour of no cell", |m| {
            m.neighbours[3] = (m.cells.len() / 27) as u32;
        }),
        (3, "a neighbour next to none", |m| {
            m.neighbours[3] = NOBODY - 1
        }),
        (4, "too many vertices", |_| ()),
    ]
}

/// Faults of the order's numbers, each by itself and with all later ones beside it.
#[test]
fn the_first_fault_counts() {
    let faults = wrongs();
    for (number, what, change) in &faults {
        let mut alone = caps(3);
        change(&mut alone);
        if *number < 4 {
            hold_refused(&alone, *number, needs(65_536, 262_144), what);
        }
        let mut map = caps(10_923);
        change(&mut map);
        for (later, _, more) in faults.iter().rev() {
            if later > number {
                more(&mut map);
            }
        }
        change(&mut map);
        hold_refused(&map, *number, needs(65_536, 262_144), what);
    }
}

/// Cells with every list and every number given, whose faces all have an inset: 60 vertices and 228 indices
/// each.
fn given(n: usize) -> HeightMap {
    let mut map = cells(n);
    let inset = CChoice {
        given: true,
        option: 0,
    };
    map.job = CHeightMap {
        caps: inset,
        sides: inset,
        customs: true,
        fringe: 2,
        range: CRange {
            given: true,
            min: -0.5,
            max: 1.5,
        },
        origin: COrigin {
            given: true,
            at: CVec2 { x: 3.0, y: -2.0 },
        },
        placement: placement(),
    };
    map.fringe = vec![0.0; 6 * n];
    map.customs = vec![255; 7 * n];
    map.table = table();
    map
}

/// So many numbers at the front of a list and at its end.
fn ends(list: &mut [f32], count: usize) -> impl Iterator<Item = &mut f32> {
    let (front, rest) = list.split_at_mut(count);
    let last = rest.len() - count;
    front.iter_mut().chain(&mut rest[last..])
}

/// Every number of the first and the last cell and of all that is given once.
fn numbers(map: &mut HeightMap) -> Vec<&mut f32> {
    let CHeightMap {
        range,
        origin,
        placement,
        ..
    } = &mut map.job;
    let mut numbers: Vec<&mut f32> = ends(&mut map.cells, 27).collect();
    numbers.extend(ends(&mut map.fringe, 6));
    numbers.extend(&mut map.corners);
    numbers.extend(&mut map.table.numbers);
    numbers.extend([&mut range.min, &mut range.max]);
    numbers.extend(vec2(&mut origin.at));
    numbers.extend(placement_numbers(placement));
    numbers
}

/// An option that names nothing: of all caps, of all sides, and of the first and the last face.
fn option_faults() -> Vec<Fault<HeightMap>> {
    type Place = fn(&mut HeightMap) -> &mut u8;
    let places: [(&str, Place); 4] = [
        ("caps", |m| &mut m.job.caps.option),
        ("sides", |m| &mut m.job.sides.option),
        ("the first face", |m| &mut m.customs[0]),
        ("the last face", |m| m.customs.last_mut().unwrap()),
    ];
    let numbers = |(name, of): (&str, Place)| {
        [1, 64, 254].map(|option| {
            fault(format!("option {option} of {name}"), move |m| {
                *of(m) = option
            })
        })
    };
    places.into_iter().flat_map(numbers).collect()
}

/// What is refused with 1.
fn shape_faults() -> Vec<Fault<HeightMap>> {
    let mut faults = map_faults();
    faults.extend(option_faults());
    faults
}

/// What is refused with 2: each number past either end of the range, infinite, or none.
fn range_faults() -> Vec<Fault<HeightMap>> {
    let count = numbers(&mut given(2)).len();
    let beyond = |place: usize| {
        BEYOND.map(|value| {
            fault(format!("{value:08x} at number {place}"), move |m| {
                *numbers(m)[place] = f32::from_bits(value)
            })
        })
    };
    (0..count).flat_map(beyond).collect()
}

/// What is refused with 3: a neighbour of the first side or of the last that is no cell.
fn neighbour_faults() -> Vec<Fault<HeightMap>> {
    let to = |is_first: bool, far: bool| {
        let name = format!("first {is_first}, far {far}");
        fault(name, move |m: &mut HeightMap| {
            let count = (m.cells.len() / 27) as u32;
            let at = if is_first { 0 } else { m.neighbours.len() - 1 };
            m.neighbours[at] = if far { NOBODY - 1 } else { count };
        })
    };
    let sides = [true, false].into_iter();
    sides
        .flat_map(|is_first| [to(is_first, false), to(is_first, true)])
        .collect()
}

/// Each fault by itself in a map of two cells, and with a fault of each later number beside it in a map
/// whose caps alone are too many.
#[test]
fn every_list_mark_and_number_in_its_place() {
    let faults = [shape_faults(), range_faults(), neighbour_faults()];
    assert_eq!(faults.each_ref().map(Vec::len), [43, 530, 4]);
    assert_eq!(given(2).plan(), done(2 * 60, 2 * 228));
    assert_eq!(given(1_092).plan(), done(1_092 * 60, 1_092 * 228));
    hold_refused(&given(1_093), 4, needs(65_536, 262_144), "1,093 cells");
    let full = given(10_923);
    for (level, of_level) in faults.iter().enumerate() {
        let number = level as u32 + 1;
        for (what, change) in of_level {
            let mut alone = given(2);
            change(&mut alone);
            hold_refused(&alone, number, needs(120, 456), what);
            let mut beside = full.clone();
            for later in &faults[level + 1..] {
                later[0].1(&mut beside);
            }
            change(&mut beside);
            hold_refused(&beside, number, needs(120, 456), what);
        }
    }
}

/// The ends of the range pass, and so do -0 and the least number above 0, wherever they stand.
#[test]
fn the_ends_of_the_range_pass() {
    for place in 0..numbers(&mut given(2)).len() {
        for value in WITHIN {
            let mut map = given(2);
            *numbers(&mut map)[place] = f32::from_bits(value);
            let plan = map.plan();
            let what = format!("{value:08x} at number {place}");
            assert_eq!(plan.number, 0, "{what}");
            let mut mesh = Mesh::known(needs(plan.vertices, plan.indices));
            assert_eq!(map.build(mesh.all()), plan, "{what}");
        }
    }
}
