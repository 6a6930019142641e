//! The layout: its corners turn the way that makes faces look outwards, side k faces neighbour k, and the
//! walls of a map meet its caps.

use hosirekar::layout::{neighbours, GivenTwice, Hex, Layout, Orientation};
use hosirekar::{CheapColumn, Column, Fringe, HeightMap, Job, Mesh, Plane};

/// Both orientations, at the origin and beside it, with one scale and with two.
fn layouts() -> Vec<Layout> {
    let mut layouts = Vec::new();
    for orientation in [Orientation::Flat, Orientation::Pointy] {
        for origin in [[0.0, 0.0], [3.0, -2.0]] {
            for scale in [[1.5, 1.5], [1.0, 2.5], [-1.0, -0.5]] {
                layouts.push(Layout {
                    orientation,
                    scale,
                    origin,
                });
            }
        }
    }
    layouts
}

/// Whether two points are one but for rounding.
fn near(a: [f32; 2], b: [f32; 2]) -> bool {
    (a[0] - b[0]).hypot(a[1] - b[1]) < 1e-5
}

fn middle(a: [f32; 2], b: [f32; 2]) -> [f32; 2] {
    [(a[0] + b[0]) / 2.0, (a[1] + b[1]) / 2.0]
}

fn minus(a: [f32; 3], b: [f32; 3]) -> [f32; 3] {
    [a[0] - b[0], a[1] - b[1], a[2] - b[2]]
}

fn cross(a: [f32; 3], b: [f32; 3]) -> [f32; 3] {
    [
        a[1] * b[2] - a[2] * b[1],
        a[2] * b[0] - a[0] * b[2],
        a[0] * b[1] - a[1] * b[0],
    ]
}

fn dot(a: [f32; 3], b: [f32; 3]) -> f32 {
    a[0] * b[0] + a[1] * b[1] + a[2] * b[2]
}

/// How far each triangle turns counter-clockwise about the normal of its first vertex.
fn turns(mesh: &Mesh) -> impl Iterator<Item = f32> + '_ {
    mesh.indices.chunks_exact(3).map(|triangle| {
        let at = |k: usize| mesh.vertices[usize::from(triangle[k])];
        let turns = cross(minus(at(1), at(0)), minus(at(2), at(0)));
        dot(turns, mesh.normals[usize::from(triangle[0])])
    })
}

fn looks_along_its_normals(mesh: &Mesh) -> bool {
    turns(mesh).all(|turn| turn > 0.0)
}

fn looks_against_its_normals(mesh: &Mesh) -> bool {
    turns(mesh).all(|turn| turn < 0.0)
}

#[test]
fn faces_look_outwards() {
    for layout in layouts() {
        let corners = layout.center_aligned_corners();
        let plane = Plane::new(corners).build().unwrap();
        assert!(looks_along_its_normals(&plane));
        assert_eq!(plane.normals[0], [0.0, 1.0, 0.0]);
        let column = Column::new(corners, 2.0).build().unwrap();
        assert!(looks_along_its_normals(&column));
        // From the middle of the column to each vertex of a side, the normal points along.
        for (vertex, normal) in column.vertices.iter().zip(&column.normals) {
            assert!(dot(minus(*vertex, [0.0, 1.0, 0.0]), *normal) > 0.0);
        }
    }
}

#[test]
fn exchanged_ends_turn_a_side_inwards() {
    // The side of the scope's sheet: its ends are left and right seen from outside.
    let ends = [[1.0, 1.0], [1.0, -1.0]];
    let mut column = Column {
        side_ends: [ends; 6],
        top: None,
        bottom: None,
        ..Column::new(layouts()[0].center_aligned_corners(), 2.0)
    };
    let inwards = column.build().unwrap();
    assert!(looks_against_its_normals(&inwards));
    column.side_ends.iter_mut().for_each(|ends| ends.reverse());
    let outwards = column.build().unwrap();
    assert!(looks_along_its_normals(&outwards));
    assert_eq!(inwards.normals, [[1.0, 0.0, 0.0]; 24]);
    assert_eq!(outwards.normals, inwards.normals);
}

#[test]
fn a_cheap_column_stands_where_the_column_does() {
    for layout in layouts() {
        let position = layout.position((2, -1));
        let cheap = CheapColumn {
            corners: layout.corners((2, -1)),
            centre: position,
            height: 2.0,
        };
        let caps = Column {
            sides: [None; 6],
            bottom: None,
            position,
            ..Column::new(layout.center_aligned_corners(), 2.0)
        };
        let (cheap, caps) = (cheap.build().unwrap(), caps.build().unwrap());
        assert_eq!(cheap.vertices[..6], caps.vertices);
    }
}

#[test]
fn side_k_faces_neighbour_k() {
    for layout in layouts() {
        for hex in [(0, 0), (2, -1), (-3, 5)] {
            let own = layout.center_aligned_position(hex);
            let ends = layout.center_aligned_side_ends(hex);
            for (side, beyond) in neighbours(hex).into_iter().enumerate() {
                let other = layout.center_aligned_position(beyond.unwrap());
                let [left, right] = ends[side];
                assert!(near(middle(left, right), middle(own, other)));
                // The neighbour has the same side across, its ends exchanged.
                let [a, b] = layout.center_aligned_side_ends(beyond.unwrap())[(side + 3) % 6];
                assert!(near(left, b) && near(right, a));
            }
        }
    }
}

#[test]
fn corners_stand_where_the_rule_says() {
    for (layout, first) in [(Layout::flat(), 0.0), (Layout::pointy(), -30.0_f32)] {
        for (k, corner) in (0u8..).zip(layout.center_aligned_corners()) {
            let (z, x) = (first + 60.0 * f32::from(k)).to_radians().sin_cos();
            assert!(near(corner, [x, z]), "{layout:?} {k}");
        }
    }
    assert_eq!(Layout::default(), Layout::flat());
}

#[test]
fn what_stands_is_what_is_center_aligned_and_the_origin() {
    for layout in layouts() {
        let still = Layout {
            origin: [0.0; 2],
            ..layout
        };
        let hex = (4, -7);
        let [x, z] = layout.center_aligned_position(hex);
        let [dx, dz] = layout.origin;
        assert_eq!(layout.position(hex), [x + dx, z + dz]);
        assert_eq!(still.position(hex), [x, z]);
        assert_eq!(
            still.corners(hex),
            still.center_aligned_side_ends(hex).map(|[left, _]| left)
        );
        let cell = layout.cell(hex, 3.0);
        assert_eq!(cell, still.cell(hex, 3.0));
        assert_eq!((cell.height, cell.position), (3.0, [x, z]));
    }
}

/// A hexagon and its neighbours, at heights that differ.
const HEIGHTS: [(Hex, f32); 7] = [
    ((2, -1), 4.0),
    ((3, -1), 3.0),
    ((2, 0), 5.0),
    ((1, 0), 1.0),
    ((1, -1), 2.0),
    ((2, -2), 7.0),
    ((3, -2), 6.0),
];

/// A map with a wall on every side that has no neighbour or a lower one.
fn walled(layout: &Layout) -> HeightMap {
    let mut map = HeightMap::from_heights(layout, HEIGHTS).unwrap();
    map.fringe = Fringe::Heights(vec![[0.0; 6]; 7]);
    map
}

/// The sides of a cell beyond which it is lower, with the height there.
fn standing(map: &HeightMap, cell: usize) -> Vec<(usize, f32)> {
    let own = &map.cells[cell];
    let beyond = |side: usize| own.neighbours[side].map_or(0.0, |other| map.cells[other].height);
    (0..6)
        .map(|side| (side, beyond(side)))
        .filter(|(_, height)| *height < own.height)
        .collect()
}

#[test]
fn a_wall_stands_between_two_corners_of_its_cap() {
    for layout in layouts() {
        let map = walled(&layout);
        let mesh = map.build().unwrap();
        let mut at = 0;
        for (cell, (hex, height)) in HEIGHTS.into_iter().enumerate() {
            let cap = &mesh.vertices[at..at + 6];
            at += 6;
            for (side, beyond) in standing(&map, cell) {
                let wall = &mesh.vertices[at..at + 4];
                at += 4;
                let [left, right] = [cap[side], cap[(side + 1) % 6]];
                assert_eq!([wall[2], wall[1]], [left, right]);
                let down = |[x, y, z]: [f32; 3]| [x, y - (height - beyond), z];
                assert_eq!([wall[3], wall[0]], [down(left), down(right)]);
            }
            // The cap is the hexagon where it stands.
            for (vertex, corner) in cap.iter().zip(layout.corners(hex)) {
                assert!(near([vertex[0], vertex[2]], corner) && vertex[1] == height);
            }
        }
        assert_eq!(at, mesh.vertices.len());
    }
}

#[test]
fn walls_turn_away_from_their_cells_and_caps_upwards() {
    for layout in layouts() {
        let map = walled(&layout);
        let mesh = map.build().unwrap();
        let mut face = 0..0;
        let mut turned = |length: usize| {
            face = face.end..face.end + length;
            let triangles = mesh.indices[face.clone()].chunks_exact(3);
            let corners = triangles.map(|triangle| {
                let at = |k: usize| mesh.vertices[usize::from(triangle[k])];
                [at(0), cross(minus(at(1), at(0)), minus(at(2), at(0)))]
            });
            corners.collect::<Vec<_>>()
        };
        for (cell, (hex, height)) in HEIGHTS.into_iter().enumerate() {
            let [x, z] = layout.position(hex);
            assert!(turned(12).iter().all(|[_, turn]| turn[1] > 0.0));
            for _ in standing(&map, cell) {
                let away =
                    |[at, turn]: &[[f32; 3]; 2]| dot(minus(*at, [x, height, z]), *turn) > 0.0;
                assert!(turned(6).iter().all(away));
            }
        }
        assert_eq!(face.end, mesh.indices.len());
    }
}

#[test]
fn the_normal_of_a_wall_is_its_way_from_the_middle_of_the_map() {
    // Side 0 looks along x. Before the middle its normal looks back.
    for (hex, along) in [((0, 0), 1.0), ((1, 0), 1.0), ((-1, 0), -1.0)] {
        let mut map = HeightMap::from_heights(&Layout::pointy(), [(hex, 1.0)]).unwrap();
        map.fringe = Fringe::Heights(vec![[0.0, 9.0, 9.0, 9.0, 9.0, 9.0]]);
        map.caps = None;
        for normal in map.build().unwrap().normals {
            assert!((normal[0] - along).abs() < 1e-6 && normal[1..] == [0.0, 0.0]);
        }
        assert_eq!(map.plan().unwrap().vertices, 4);
    }
}

#[test]
fn cells_keep_their_order_and_know_their_neighbours() {
    let map = HeightMap::from_heights(&Layout::pointy(), HEIGHTS).unwrap();
    assert_eq!(map.cells.len(), 7);
    for (cell, (hex, height)) in map.cells.iter().zip(HEIGHTS) {
        assert_eq!(
            (cell.height, cell.position),
            (height, Layout::pointy().position(hex))
        );
        for (beyond, place) in neighbours(hex).into_iter().zip(cell.neighbours) {
            let wanted = HEIGHTS.iter().position(|(hex, _)| Some(*hex) == beyond);
            assert_eq!(place, wanted);
        }
    }
    assert_eq!(map.cells[0].neighbours, [1, 2, 3, 4, 5, 6].map(Some));
    assert_eq!(map.origin, Some([0.0, 0.0]));
    let empty = HeightMap::from_heights(&Layout::flat(), []).unwrap();
    assert_eq!(empty.build(), Ok(Mesh::default()));
}

#[test]
fn the_ends_of_the_coordinates_have_no_neighbour_beyond() {
    let ends = [(i32::MAX, 0), (i32::MIN, 0), (0, i32::MAX), (0, i32::MIN)];
    let map = HeightMap::from_heights(&Layout::flat(), ends.map(|hex| (hex, 1.0))).unwrap();
    assert!(map.cells.iter().all(|cell| cell.neighbours == [None; 6]));
    assert_eq!(neighbours((i32::MAX, i32::MIN))[0], None);
    assert_eq!(
        neighbours((i32::MAX, i32::MIN))[2],
        Some((i32::MAX - 1, i32::MIN + 1))
    );
}

#[test]
fn a_hexagon_given_twice_is_told_with_both_places() {
    let mut heights = HEIGHTS.to_vec();
    heights.insert(5, HEIGHTS[1]);
    // What is first found twice is told, though another comes twice before it.
    heights.push(HEIGHTS[0]);
    let twice = HeightMap::from_heights(&Layout::flat(), heights).unwrap_err();
    let wanted = GivenTwice {
        hex: (3, -1),
        places: [1, 5],
    };
    assert_eq!(twice, wanted);
    let words = "the hexagon (3, -1) is given twice, at 1 and 5: give each a single height";
    assert_eq!(twice.to_string(), words);
}
