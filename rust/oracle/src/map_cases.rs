//! The height maps of the record: lists that are gone through in turn, and then
//! drawn ones. Those with a turn stand apart.

use crate::FaceOptions;
use crate::builder_cases::{Cases, all_options};
use crate::builders::Choice;
use crate::cases::three_ways;
use crate::map_draws::drawn_map;
use crate::map_grounds::{Axial, Layout, empty, linked, patch};
use crate::map_steps::{WRITTEN, faces, range};
use crate::maps::{Map, NOBODY, OWN, Turn};
use crate::numbers::{ENDS, LIMIT, SUBNORMAL};
use crate::random::Random;
use crate::shapes::{RANGES, odd_hexagons, stretched};
use glam::{Vec2, Vec3, vec2, vec3};

/// How many of the maps without a turn are drawn, and how many have one.
pub const DRAWN: usize = 24;
/// See [`DRAWN`].
pub const TURNED: usize = 20;

/// What a mesh of the record may have: the program `replay_maps` has fixed lists.
const VERTICES: usize = 264;
/// See [`VERTICES`].
const INDICES: usize = 990;
/// See [`VERTICES`].
const FACES: usize = 60;

/// The maps of the record.
#[must_use]
pub fn recorded_maps() -> Cases<Map> {
    let mut random = Random::new(0x6d61_7073);
    let mut plain = every_setting();
    plain.extend(some_options());
    plain.extend(some_ranges());
    plain.extend(zeros());
    plain.extend(ends());
    plain.extend(links());
    plain.extend(counts());
    plain.extend(odd_corners());
    plain.extend((0..DRAWN).map(|_| small(&mut random, false)));
    let mut turned: Vec<Map> = (0..TURNED).map(|_| small(&mut random, true)).collect();
    turned.extend(nine_numbers());
    Cases { plain, turned }
}

/// `count` drawn maps without a turn, and as many with one.
pub fn drawn_maps(random: &mut Random, count: usize) -> Cases<Map> {
    Cases {
        plain: (0..count).map(|_| small(random, false)).collect(),
        turned: (0..count).map(|_| small(random, true)).collect(),
    }
}

/// A drawn map of at most seven cells that has a face and fits.
fn small(random: &mut Random, turned: bool) -> Map {
    loop {
        let map = drawn_map(random, turned);
        let faces = faces(&WRITTEN, &map, range(&WRITTEN, &map));
        let vertices: usize = faces.iter().map(|face| face.positions.len()).sum();
        let indices: usize = faces.iter().map(|face| face.indices.len()).sum();
        let fits = vertices <= VERTICES && indices <= INDICES && faces.len() <= FACES;
        if map.count() <= 7 && !faces.is_empty() && fits {
            return map;
        }
    }
}

/// Layouts of both orientations, squashed and mirrored, with several origins.
fn layout(turn: usize) -> Layout {
    let sizes = [
        vec2(1.0, 1.0),
        vec2(10.0, 10.0),
        vec2(2.0, 0.5),
        vec2(-1.5, 0.7),
    ];
    let origins = [Vec2::ZERO, vec2(17.3, -4.25), vec2(-0.0, 2.5)];
    Layout {
        pointy: turn.is_multiple_of(2),
        by: sizes[turn / 2 % sizes.len()],
        origin: origins[turn % origins.len()],
    }
}

/// The first of the hexes in a row, from left to right.
fn row(count: usize) -> Vec<Axial> {
    (0..count as i32).map(|q| [q, 0]).collect()
}

/// A map of one row.
fn in_row(turn: usize, heights: &[f32]) -> Map {
    layout(turn).map(&row(heights.len()), heights)
}

/// With the numbers that can be supplied, from none to all.
fn placed(turn: usize, map: Map) -> Map {
    let centred = turn.is_multiple_of(3);
    Map {
        scale: (turn % 4 > 1).then_some(vec3(1.5, 0.7, -2.1)),
        offset: (turn % 5 > 2).then_some(vec3(0.1, -3.3, 1e-3)),
        origin: map.origin.filter(|_| !centred),
        ..map
    }
}

/// Three options that change from turn to turn.
fn three_options(turn: usize) -> Vec<FaceOptions> {
    let table = all_options();
    let option = |k: usize| table[(7 * turn + 31 * k) % table.len()];
    (0..3).map(option).collect()
}

/// Numbers of the job's own options and of three entries.
fn mixed_customs(turn: usize, count: usize) -> Vec<u8> {
    let custom = |at: usize| match (turn + at) % 4 {
        3 => OWN,
        entry => entry as u8,
    };
    (0..7 * count).map(custom).collect()
}

/// Heights beyond the edge, some below every cell, some as high, some above.
fn mixed_fringe(turn: usize, count: usize) -> Vec<f32> {
    let heights = [-2.5, 9.0, 0.0, 1.0, -0.75];
    (0..6 * count)
        .map(|at| heights[(turn + at) % heights.len()])
        .collect()
}

/// Caps and sides off, of the default and of an entry, with and without a
/// fringe and custom options.
fn every_setting() -> Vec<Map> {
    let choices = |at: usize| [Choice::Absent, Choice::Default, Choice::Entry(at % 3)];
    let heights = [1.0, 3.0, -0.5];
    let map = |at: usize| {
        let count = 1 + (at + at / 3) % 3;
        let map = in_row(at, &heights[..count]);
        Map {
            caps: choices(at)[at % 3],
            sides: choices(at + 1)[at / 3 % 3],
            fringe: (at / 9 % 2 == 1).then(|| mixed_fringe(at, count)),
            customs: (at / 18 == 1).then(|| mixed_customs(at, count)),
            options: three_options(at),
            range: (at % 2 == 1).then_some([-2.5, 3.5]),
            ..placed(at, map)
        }
    };
    (0..36).map(map).collect()
}

/// Insets and textures on one wall and two caps, by the job's own options and
/// by custom ones.
fn some_options() -> Vec<Map> {
    let all = all_options();
    let map = |(at, option): (usize, &FaceOptions)| {
        let map = placed(at, in_row(at, &[1.25, -0.4]));
        let own = Map {
            caps: Choice::Entry(0),
            sides: Choice::Entry(0),
            options: vec![*option],
            ..map
        };
        match at % 2 {
            0 => own,
            _ => Map {
                caps: Choice::Default,
                sides: Choice::Default,
                customs: Some(vec![0; 14]),
                ..own
            },
        }
    };
    all.iter().step_by(5).enumerate().map(map).collect()
}

/// Ranges that are given: flat, reversed and any; and those of all heights.
fn some_ranges() -> Vec<Map> {
    let mut all = Vec::new();
    for (at, given) in RANGES.into_iter().enumerate() {
        // The wall stands on the range's own start, 0 over 0 where it is flat.
        let map = in_row(at, &[given[0].max(0.0) + 2.0, given[0]]);
        let top = map.cells[0].min(LIMIT);
        let mut map = Map {
            range: Some(given),
            ..placed(at, map)
        };
        map.cells[0] = top;
        all.push(map);
    }
    all.extend(ranges_of_all());
    all
}

/// Ranges of all heights that are flat, or have a zero for an end.
fn ranges_of_all() -> Vec<Map> {
    let heights: [&[f32]; 9] = [
        &[2.0],
        &[-3.0, -3.0],
        &[0.0, -0.0],
        &[-0.0, 0.0],
        &[0.0, -0.0, 4.0],
        &[-0.0, 0.0, 4.0],
        &[-0.0, 4.0, 0.0],
        &[-4.0, -0.0, 0.0],
        // hexx may take several heights at once, and has the later zero here.
        &[1.0, 1.0, 0.0, 1.0, 1.0, -0.0, 1.0, 1.0, 1.0],
    ];
    let map = |(at, heights): (usize, &[f32])| {
        let mut options = FaceOptions::new();
        // With these a v of -0 stays, and so the sign of the range's end shows.
        (options.uv.offset.y, options.uv.rect.min.y) = (-0.0, -0.0);
        Map {
            fringe: (at < 4).then(|| vec![-5.0; 6 * heights.len()]),
            sides: Choice::Entry(0),
            options: vec![options],
            ..in_row(at, heights)
        }
    };
    heights.into_iter().enumerate().map(map).collect()
}

/// Both zeros wherever they can stand: heights, positions, corners, ends, and
/// what is supplied.
fn zeros() -> Vec<Map> {
    let mut all = Vec::new();
    for position in [0.0, -0.0] {
        for corner in [1.0, -1.0] {
            for height in [-1.0, -0.0, 0.0, 1.0] {
                all.push(cell_of_zeros(all.len(), position, corner, height));
            }
        }
    }
    // From here on the caps keep a -0 until something is supplied.
    let lowest = |turn: usize| cell_of_zeros(turn, -0.0, -1.0, [-1.0, -0.0][turn % 2]);
    for scale in [1.0, -1.0, 0.0, -0.0] {
        let scale = Some(Vec3::splat(scale));
        let map = lowest(all.len());
        all.push(Map { scale, ..map });
    }
    let moves = [None, Some(-0.0), Some(0.0)];
    for offset in moves {
        for origin in moves {
            let map = lowest(all.len());
            all.push(Map {
                offset: offset.map(Vec3::splat),
                origin: origin.map(Vec2::splat),
                ..map
            });
        }
    }
    all
}

/// One cell on a hexagon whose zeros have the sign of `corner`, as the ends of
/// its sides do; every other time with a fringe.
fn cell_of_zeros(turn: usize, position: f32, corner: f32, height: f32) -> Map {
    let corners = stretched((turn / 2).is_multiple_of(2), Vec2::splat(corner));
    let mut map = linked(corners, &[(height, Vec2::splat(position))], &[NOBODY; 6]);
    let ends = (0..6).flat_map(|side| [corners[side], corners[(side + 1) % 6]]);
    map.cells.truncate(3);
    map.cells.extend(ends.flat_map(|corner| corner.to_array()));
    Map {
        fringe: (turn % 2 == 1).then(|| vec![-2.0, -0.0, 0.0, -1.0, 1.0, -3.0]),
        range: (turn % 4 == 3).then_some([-0.0, 1.0]),
        ..map
    }
}

/// Every end of a class as a height, and as what is supplied.
fn ends() -> Vec<Map> {
    let end = |at: usize| ENDS[at % ENDS.len()];
    let heights = (0..13).map(|at| placed(at, in_row(at, &[end(at), end(25 - at)])));
    let placements = (0..26).step_by(3).map(|at| {
        let position = vec2(end(at), end(at + 9));
        let corners = stretched(at % 2 == 0, vec2(1.3, 0.9));
        let mut map = linked(corners, &[(end(at + 7), Vec2::ZERO)], &[NOBODY; 6]);
        map.cells[1..3].copy_from_slice(&position.to_array());
        Map {
            fringe: Some(vec![-LIMIT; 6]),
            customs: Some(vec![OWN, OWN, OWN, 0, OWN, OWN, OWN]),
            options: vec![three_ways(at)[1].0],
            scale: (at % 2 == 0).then(|| vec3(end(at + 4), end(at + 1), end(at + 17))),
            offset: (at % 4 > 0).then(|| vec3(end(at + 13), end(at), end(at + 5))),
            origin: (at % 3 == 0).then(|| vec2(end(at + 2), end(at + 11))),
            ..map
        }
    });
    let most = Map {
        cells: vec![LIMIT; 27],
        neighbours: vec![NOBODY; 6],
        fringe: Some(vec![-LIMIT; 6]),
        range: Some([LIMIT, -LIMIT]),
        scale: Some(Vec3::splat(LIMIT)),
        offset: Some(Vec3::splat(-LIMIT)),
        origin: Some(Vec2::splat(LIMIT)),
        ..empty([Vec2::splat(-LIMIT); 6])
    };
    heights.chain(placements).chain([most]).collect()
}

/// Equal neighbours and lower ones, cells that are their own neighbours, links
/// of one side only, and holes.
fn links() -> Vec<Map> {
    let corners = stretched(true, vec2(1.0, 1.0));
    let two = |heights: [f32; 2], neighbours: [u32; 12]| {
        let cells = [(heights[0], Vec2::ZERO), (heights[1], vec2(2.0, 0.0))];
        linked(corners, &cells, &neighbours)
    };
    let none = [NOBODY; 12];
    let mut one_sided = none;
    one_sided[4] = 1;
    let mut other_side = none;
    other_side[6] = 0;
    let mut all = vec![
        // The scope's own: no side, and one.
        in_row(0, &[2.0, 2.0]),
        in_row(0, &[2.0, 1.0]),
        in_row(1, &[0.0, -0.0]),
        in_row(1, &[-0.0, 0.0]),
        in_row(0, &[2.0, f32::from_bits(2.0_f32.to_bits() - 1)]),
        in_row(0, &[SUBNORMAL, 0.0]),
        two([5.0, 1.0], one_sided),
        two([1.0, 5.0], one_sided),
        two([1.0, 5.0], other_side),
        two([1.0, 5.0], [1; 12]),
        two([5.0, 1.0], [0; 12]),
        linked(corners, &[(3.0, Vec2::ZERO)], &[0; 6]),
    ];
    // Across itself there is a cell, so that no fringe is asked there.
    let fringe = Some(vec![-9.0; 6]);
    let own = [0, NOBODY, 0, NOBODY, 0, 0];
    let itself = linked(corners, &[(3.0, Vec2::ZERO)], &own);
    all.push(Map { fringe, ..itself });
    all.extend(holes());
    all
}

/// A ring about a hole, bare, with a fringe, and with sides alone.
fn holes() -> Vec<Map> {
    let ring: Vec<Axial> = patch(1).into_iter().filter(|hex| *hex != [0, 0]).collect();
    let ring = layout(2).map(&ring, &[1.0, 2.0, 3.0, 2.5, 1.5, 0.5]);
    let fringe = Some(mixed_fringe(1, 6));
    let walls = Map {
        caps: Choice::Absent,
        fringe: fringe.clone(),
        ..ring.clone()
    };
    let capped = Map {
        fringe,
        range: Some([-2.5, 3.0]),
        ..ring.clone()
    };
    vec![ring, walls, capped]
}

/// 0 cells in four ways, 1 without a face, 7 and 19.
fn counts() -> Vec<Map> {
    let none = empty(stretched(false, vec2(1.0, 1.0)));
    let listed = Map {
        fringe: Some(Vec::new()),
        customs: Some(Vec::new()),
        options: three_options(5),
        caps: Choice::Entry(2),
        sides: Choice::Entry(0),
        ..none.clone()
    };
    let off = Map {
        caps: Choice::Absent,
        sides: Choice::Absent,
        ..listed.clone()
    };
    let given = Map {
        range: Some([1.0, 1.0]),
        scale: Some(Vec3::ZERO),
        ..none.clone()
    };
    let bare = Map {
        caps: Choice::Absent,
        ..in_row(3, &[7.0])
    };
    let mut all = vec![none, listed, off, given, bare];
    let hills: [[f32; 7]; 3] = [
        [1.0, 0.5, 0.25, 4.0, 0.0, -0.5, 1.0],
        [2.0, 3.0, 2.5, -1.0, 4.0, 3.5, 2.0],
        [1.5; 7],
    ];
    for (turn, heights) in hills.into_iter().enumerate() {
        all.push(placed(turn + 1, layout(turn + 1).map(&patch(1), &heights)));
    }
    all.extend(nineteen());
    all
}

/// 19 cells: sides alone, caps alone with custom options, and both with few
/// sides, some of them on a fringe.
fn nineteen() -> Vec<Map> {
    let rough: Vec<f32> = (0..19).map(|at| ((7 * at) % 19) as f32 * 0.37).collect();
    let walls = Map {
        caps: Choice::Absent,
        ..layout(1).map(&patch(2), &rough)
    };
    let caps = Map {
        sides: Choice::Absent,
        customs: Some(mixed_customs(1, 19)),
        options: three_options(1),
        ..layout(4).map(&patch(2), &rough)
    };
    let mut steps = [1.0; 19];
    (steps[9], steps[0], steps[17]) = (3.0, -2.0, 0.5);
    let fringe = (0..114).map(|at| if at % 11 == 0 { 0.25 } else { 1.0 });
    let both = Map {
        fringe: Some(fringe.collect()),
        ..layout(3).map(&patch(2), &steps)
    };
    vec![walls, caps, placed(2, both)]
}

/// Caps and walls on hexagons that no layout makes.
fn odd_corners() -> Vec<Map> {
    let map = |(at, corners): (usize, [Vec2; 6])| {
        let links: [u32; 12] = std::array::from_fn(|side| match (side + at) % 3 {
            0 => NOBODY,
            _ => u32::from(side < 6),
        });
        let mut map = linked(corners, &[(2.0, Vec2::ZERO), (0.5, Vec2::ZERO)], &links);
        map.cells[27 + 1] = -0.0;
        let [plain, centroid, smallest] = three_ways(at).map(|(options, _)| options);
        placed(
            at,
            Map {
                caps: Choice::Entry(at % 3),
                sides: Choice::Entry((at + 1) % 3),
                options: vec![plain, centroid, smallest],
                ..map
            },
        )
    };
    odd_hexagons()
        .into_iter()
        .enumerate()
        .step_by(2)
        .map(map)
        .collect()
}

/// Turns by nine numbers that no quaternion gives.
fn nine_numbers() -> Vec<Map> {
    let rows = [
        [Vec3::ZERO; 3],
        [Vec3::splat(-0.0); 3],
        [
            Vec3::splat(LIMIT),
            Vec3::splat(-LIMIT),
            Vec3::splat(SUBNORMAL),
        ],
        [
            vec3(0.0, -1.0, 0.0),
            vec3(-0.0, 0.0, 3.0),
            vec3(0.1, 0.2, 0.7),
        ],
    ];
    let map = |(at, rows): (usize, [Vec3; 3])| Map {
        turn: Some(Turn::Rows(rows)),
        ..placed(at + 1, in_row(at, &[-1.5, -4.0]))
    };
    rows.into_iter().enumerate().map(map).collect()
}
