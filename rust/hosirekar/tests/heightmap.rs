//! Height maps: which sides stand, whose options a face has, the limits, and what is refused.

mod common;
use common::*;
use hosirekar::*;

/// How many vertices a map without insets plans by its caps and walls.
fn planned(map: &HeightMap) -> usize {
    map.plan().unwrap().vertices
}

/// Two cells side by side, the second beyond side 0 of the first.
fn two(heights: [f32; 2]) -> HeightMap {
    let mut cells = vec![cell(heights[0], [0.0, 0.0]), cell(heights[1], [3.0, 2.0])];
    cells[0].neighbours[0] = Some(1);
    cells[1].neighbours[3] = Some(0);
    HeightMap::new(CORNERS, cells)
}

#[test]
fn a_side_stands_where_it_is_lower_beyond() {
    assert_eq!(planned(&two([1.0, 1.0])), 12);
    assert_eq!(planned(&two([2.0, 1.0])), 16);
    assert_eq!(planned(&two([1.0, 2.0])), 16);
    let mut map = two([2.0, 1.0]);
    map.fringe = Fringe::Heights(vec![[1.0; 6]; 2]);
    // Five sides of the higher cell have nobody beyond; the lower cell is as high as the fringe.
    assert_eq!(planned(&map), 16 + 5 * 4);
    map.sides = None;
    assert_eq!(planned(&map), 12);
    map.caps = None;
    assert_eq!(map.build(), Ok(Mesh::default()));
    assert_eq!(HeightMap::default().build(), Ok(Mesh::default()));
}

#[test]
fn a_wall_reaches_from_the_height_beyond_to_its_own() {
    let mut map = HeightMap {
        caps: None,
        ..two([5.0, 2.0])
    };
    let mesh = map.build().unwrap();
    let wall = [
        [1.0, 2.0, 2.0],
        [1.0, 5.0, 2.0],
        [2.0, 5.0, 0.0],
        [2.0, 2.0, 0.0],
    ];
    assert_eq!(mesh.vertices, wall);
    assert_eq!(mesh.uvs, [[1.0, 0.0], [1.0, 1.0], [0.0, 1.0], [0.0, 0.0]]);
    map.height_range = Some(1.0..=9.0);
    let uvs = [[1.0, 0.125], [1.0, 0.5], [0.0, 0.5], [0.0, 0.125]];
    assert_eq!(map.build().unwrap().uvs, uvs);
    map.origin = Some([10.0, 20.0]);
    map.offset = Some([0.0, 1.0, 0.0]);
    assert_eq!(map.build().unwrap().vertices[2], [12.0, 6.0, 20.0]);
}

#[test]
fn a_custom_option_stands_in_for_the_maps_own() {
    let lone = |options: Option<FaceOptions>| HeightMap {
        caps: options,
        ..HeightMap::new(CORNERS, vec![cell(1.0, [0.0, 0.0])])
    };
    let uvs = |map: &HeightMap| map.build().unwrap().uvs;
    for own in [FaceOptions::default(), options(4)] {
        for custom in [FaceOptions::default(), options(4), options(8)] {
            let mut map = lone(Some(own));
            map.custom_options = Some(vec![CellOptions::default()]);
            assert_eq!(uvs(&map), uvs(&lone(Some(own))));
            map.custom_options = Some(vec![CellOptions {
                cap: Some(custom),
                ..CellOptions::default()
            }]);
            assert_eq!(uvs(&map), uvs(&lone(Some(custom))));
            // No cap comes or goes by them.
            map.caps = None;
            assert_eq!(map.build(), Ok(Mesh::default()));
        }
    }
    assert_ne!(uvs(&lone(Some(options(4)))), uvs(&lone(Some(options(8)))));
}

/// Options without an inset that differ from those of another `k`.
fn shifted(k: u8) -> FaceOptions {
    let mut options = FaceOptions::default();
    options.uv.offset = [f32::from(k), 1.0];
    options
}

/// So many caps, each with options of its own; the first with the map's.
fn optional(count: u8) -> HeightMap {
    let cells = (0..count).map(|k| cell(0.0, [f32::from(k), 0.0])).collect();
    let custom = |k: u8| CellOptions {
        cap: Some(shifted(k)),
        ..CellOptions::default()
    };
    HeightMap {
        caps: Some(shifted(0)),
        custom_options: Some((0..count).map(custom).collect()),
        ..HeightMap::new(CORNERS, cells)
    }
}

#[test]
fn a_map_has_at_most_sixty_four_options() {
    assert_eq!(planned(&optional(62)), 62 * 6);
    let full = optional(64);
    assert_eq!(planned(&full), 64 * 6);
    // Each cap has the uvs that it has alone.
    let uvs = full.build().unwrap().uvs;
    for (k, own) in uvs.chunks_exact(6).enumerate() {
        let alone = Plane {
            options: shifted(k as u8),
            ..Plane::new(CORNERS)
        };
        assert_eq!(own, alone.build().unwrap().uvs);
    }
    assert_eq!(optional(65).plan(), Err(Refusal::Shape));
    assert_eq!(optional(200).plan(), Err(Refusal::Shape));
    let mut map = full;
    map.sides = Some(options(1));
    assert_eq!(map.plan(), Err(Refusal::Shape));
}

#[test]
fn options_that_come_again_are_entered_once() {
    let by_turns = |k: u8| CellOptions {
        cap: Some(shifted(k % 3)),
        ..CellOptions::default()
    };
    let map = HeightMap {
        custom_options: Some((0..200).map(by_turns).collect()),
        ..optional(200)
    };
    assert_eq!(planned(&map), 200 * 6);
}

#[test]
fn lists_have_an_entry_for_each_cell() {
    for more in [0, 1, 3, 70_000] {
        let fringe = HeightMap {
            fringe: Fringe::Heights(vec![[0.0; 6]; more]),
            ..two([1.0, 2.0])
        };
        assert_eq!(fringe.build(), Err(Refusal::Shape));
        let custom = HeightMap {
            custom_options: Some(vec![CellOptions::default(); more]),
            ..two([1.0, 2.0])
        };
        assert_eq!(custom.build(), Err(Refusal::Shape));
        // Lists come before numbers, and those before neighbours.
        let mut both = custom;
        both.cells[0].height = f32::NAN;
        both.cells[0].neighbours[5] = Some(2);
        assert_eq!(both.plan(), Err(Refusal::Shape));
        both.custom_options = None;
        let why = both.plan().unwrap_err().to_string();
        assert!(why.starts_with("cells[0].height is NaN: "), "{why}");
        both.cells[0].height = 0.0;
        assert_eq!(both.plan(), Err(Refusal::Neighbour));
    }
}

#[test]
fn a_neighbour_is_a_cell_or_none() {
    let astray = u32::MAX as usize;
    for place in [2, 3, 65_536, astray - 1, astray, astray + 1, usize::MAX] {
        let mut map = two([1.0, 2.0]);
        map.cells[1].neighbours[5] = Some(place);
        assert_eq!(map.plan(), Err(Refusal::Neighbour), "{place}");
        assert_eq!(map.build(), Err(Refusal::Neighbour), "{place}");
        assert_eq!(map.faces(), Err(Refusal::Neighbour), "{place}");
        assert_eq!(map.window(9), Err(Refusal::Neighbour), "{place}");
        let mut mesh = filled(16, 30);
        let face = map.build_face(9, &mut mesh.buffers());
        assert_eq!((face, mesh), (Err(Refusal::Neighbour), filled(16, 30)));
    }
}

/// So many cells one above another.
fn pile(count: usize) -> HeightMap {
    HeightMap::new(CORNERS, vec![cell(1.0, [0.0, 0.0]); count])
}

#[test]
fn a_map_reaches_its_limits_and_does_not_pass_them() {
    let mesh = pile(10_922).build().unwrap();
    assert_eq!((mesh.vertices.len(), mesh.indices.len()), (65_532, 131_064));
    assert_eq!(mesh.indices.iter().max(), Some(&65_531));
    assert_eq!(pile(10_923).build(), Err(Refusal::Limit));
    let bare = |count| HeightMap {
        caps: None,
        ..pile(count)
    };
    assert_eq!(bare(65_536).build(), Ok(Mesh::default()));
    assert_eq!(bare(65_537).build(), Err(Refusal::Shape));
    assert_eq!(bare(70_000).build(), Err(Refusal::Shape));
}

#[test]
fn the_ends_of_the_range_are_tested() {
    let past = f32::from_bits(1_000_000f32.to_bits() + 1);
    for x in [past, -past, f32::INFINITY, f32::NAN] {
        for (range, end) in [(x..=1.0, "start"), (1.0..=x, "end")] {
            let map = HeightMap {
                height_range: Some(range),
                ..heightmap()
            };
            let words = map.plan().unwrap_err().to_string();
            assert!(words.starts_with(&format!("height_range.{end} is {x}: ")));
        }
    }
    let all = HeightMap {
        height_range: None,
        caps: None,
        ..two([1_000_000.0, -1_000_000.0])
    };
    assert_eq!(all.build().unwrap().uvs[1], [1.0, 1.0]);
}
