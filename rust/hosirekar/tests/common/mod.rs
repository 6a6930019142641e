//! What the tests share: corners, jobs with every face and option, and meshes by their bits.
#![allow(dead_code)]

use hosirekar::*;

/// Centre-aligned corners whose numbers are small and whole.
pub const CORNERS: [[f32; 2]; 6] = [
    [2.0, 0.0],
    [1.0, 2.0],
    [-1.0, 2.0],
    [-2.0, 0.0],
    [-1.0, -2.0],
    [1.0, -2.0],
];

/// The bits of a mesh, by which 0 and -0 differ.
pub type Bits = (Vec<u32>, Vec<u32>, Vec<u32>, Vec<u16>);

pub fn bits(mesh: &Mesh) -> Bits {
    let of = |numbers: &[f32]| numbers.iter().map(|x| x.to_bits()).collect();
    (
        of(mesh.vertices.as_flattened()),
        of(mesh.normals.as_flattened()),
        of(mesh.uvs.as_flattened()),
        mesh.indices.clone(),
    )
}

/// A mesh of so many vertices and indices, filled with what no job here writes.
pub fn filled(vertices: usize, indices: usize) -> Mesh {
    Mesh {
        vertices: vec![[-77.0; 3]; vertices],
        normals: vec![[-77.0; 3]; vertices],
        uvs: vec![[-77.0; 2]; vertices],
        indices: vec![7777; indices],
    }
}

/// The mesh with each of its four lists in turn one short.
pub fn one_short(mesh: &Mesh) -> [Mesh; 4] {
    let mut four = [(); 4].map(|()| mesh.clone());
    four[0].vertices.pop();
    four[1].normals.pop();
    four[2].uvs.pop();
    four[3].indices.pop();
    four
}

/// Options whose every number differs, and differs from those of another `n`.
pub fn options(n: u8) -> FaceOptions {
    let x = f32::from(n);
    FaceOptions {
        uv: UVOptions {
            scale_factor: [x + 0.125, x + 0.25],
            flip: [n % 2 == 1, n % 3 == 1],
            offset: [x + 0.375, x + 0.5],
            rect: Rect {
                min: [x + 0.625, x + 0.75],
                max: [x + 10.875, x + 11.0],
            },
        },
        insetting: (n % 4 > 0).then_some(InsetOptions {
            keep_inner_face: n % 2 == 0,
            scale: 0.25 + x / 64.0,
            mode: match n % 4 {
                1 => InsetScaleMode::Centroid,
                _ => InsetScaleMode::SmallestEdge,
            },
        }),
    }
}

pub const SCALE: [f32; 3] = [2.0, 3.0, 5.0];
pub const ROTATION: [[f32; 3]; 3] = [[1.0, 7.0, 11.0], [13.0, 17.0, 19.0], [23.0, 29.0, 31.0]];
pub const OFFSET: [f32; 3] = [100.0, 200.0, 300.0];

pub fn plane() -> Plane {
    Plane {
        position: [40.0, 50.0],
        options: options(2),
        scale: Some(SCALE),
        rotation: Some(ROTATION),
        offset: Some(OFFSET),
        ..Plane::new(CORNERS)
    }
}

/// All faces, three parts a side, each side and cap with options of its own.
pub fn column() -> Column {
    Column {
        subdivisions: Some(3),
        sides: std::array::from_fn(|side| Some(options(side as u8))),
        top: Some(options(6)),
        bottom: Some(options(7)),
        position: [60.0, 70.0],
        scale: Some(SCALE),
        rotation: Some(ROTATION),
        offset: Some(OFFSET),
        ..Column::new(CORNERS, 8.0)
    }
}

pub fn cheap_column() -> CheapColumn {
    CheapColumn {
        corners: CORNERS,
        centre: [0.5, -0.25],
        height: 3.0,
    }
}

/// A cell at that place, no side of which has a neighbour.
pub fn cell(height: f32, [x, z]: [f32; 2]) -> Cell {
    let corner = |k: usize| [x + CORNERS[k % 6][0], z + CORNERS[k % 6][1]];
    Cell {
        height,
        position: [x, z],
        side_ends: std::array::from_fn(|side| [corner(side), corner(side + 1)]),
        neighbours: [None; 6],
    }
}

/// Three cells about one corner, each with options of its own in part, and everything given.
pub fn heightmap() -> HeightMap {
    let mut cells = vec![
        cell(8.0, [0.0, 0.0]),
        cell(5.0, [3.0, 2.0]),
        cell(6.0, [0.0, 4.0]),
    ];
    cells[0].neighbours = [Some(1), Some(2), None, None, None, None];
    cells[1].neighbours = [None, None, Some(2), Some(0), None, None];
    cells[2].neighbours = [None, None, None, None, Some(0), Some(1)];
    let custom = |cap: Option<u8>, sides: [Option<u8>; 6]| CellOptions {
        cap: cap.map(options),
        sides: sides.map(|side| side.map(options)),
    };
    let customs = vec![
        custom(Some(3), [Some(1), None, Some(2), None, None, Some(4)]),
        CellOptions::default(),
        custom(None, [None, Some(5), None, None, Some(6), Some(7)]),
    ];
    HeightMap {
        caps: Some(options(2)),
        sides: Some(options(0)),
        custom_options: Some(customs),
        fringe: Fringe::Heights(vec![
            [0.0, 1.0, 2.0, 8.0, 4.0, 5.0],
            [1.0, 5.0, 2.0, 3.0, 4.0, 9.0],
            [0.0, 2.0, 6.0, 3.0, 1.0, 1.0],
        ]),
        height_range: Some(1.0..=9.0),
        origin: Some([80.0, 90.0]),
        scale: Some(SCALE),
        rotation: Some(ROTATION),
        offset: Some(OFFSET),
        ..HeightMap::new(CORNERS, cells)
    }
}

/// A generator of the tests' own (xorshift), so that an order can be shuffled again the same way.
pub struct Random(pub u64);

impl Random {
    pub fn below(&mut self, n: usize) -> usize {
        self.0 ^= self.0 << 13;
        self.0 ^= self.0 >> 7;
        self.0 ^= self.0 << 17;
        (self.0 % n as u64) as usize
    }
}
