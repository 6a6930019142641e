//! What a height map tells of its walls and faces, the plain way: its faces are named one after another, and a
//! face's number is its place in that list.

use super::jobs::{HeightMap, Job};
use super::{done, needs, refused, Mesh};
use hosirekar_sys::*;

/// The number for no neighbour.
pub const NOBODY: u32 = u32::MAX;

/// A face: the cap of a cell, or one of its sides.
#[derive(Clone, Copy, Debug, PartialEq, Eq)]
pub enum Name {
    Cap(usize),
    Side(usize, usize),
}

pub fn no_why(number: u32) -> CWhy {
    CWhy {
        answer: refused(number),
        ..CWhy::default()
    }
}

pub fn no_which(number: u32) -> CWhich {
    CWhich {
        answer: refused(number),
        ..CWhich::default()
    }
}

/// Equal, with the bits of the height, by which 0 and -0 differ.
pub fn is_same_why(made: CWhy, wanted: CWhy) -> bool {
    made == wanted && made.height.to_bits() == wanted.height.to_bits()
}

/// How many cells a map has.
pub fn count(map: &HeightMap) -> usize {
    map.cells.len() / 27
}

pub fn height(map: &HeightMap, cell: usize) -> f32 {
    map.cells[27 * cell]
}

/// The height beyond a side: the neighbour's, or that of the fringe if there is none and a fringe is listed.
pub fn beyond(map: &HeightMap, cell: usize, side: usize) -> Option<f32> {
    let place = 6 * cell + side;
    match map.neighbours[place] {
        NOBODY if map.job.fringe == 2 => Some(map.fringe[place]),
        NOBODY => None,
        neighbour => Some(height(map, neighbour as usize)),
    }
}

/// Sides are on, there is a height beyond, and it is below the cell's.
fn stands(map: &HeightMap, cell: usize, side: usize) -> bool {
    let lower = |beyond| beyond < height(map, cell);
    map.job.sides.given && beyond(map, cell, side).is_some_and(lower)
}

/// Of each cell in order the cap, if caps are on, and then the sides that stand.
fn names(map: &HeightMap) -> Vec<Name> {
    let mut names = Vec::new();
    for cell in 0..count(map) {
        names.extend(map.job.caps.given.then_some(Name::Cap(cell)));
        let sides = (0..6).filter(|side| stands(map, cell, *side));
        names.extend(sides.map(|side| Name::Side(cell, side)));
    }
    names
}

/// How many vertices and indices a face has, by the inset of its option.
pub fn size(map: &HeightMap, name: Name) -> CCounts {
    let (corners, triangles, place, own) = match name {
        Name::Cap(cell) => (6, 4, 7 * cell, map.job.caps.option),
        Name::Side(cell, side) => (4, 2, 7 * cell + 1 + side, map.job.sides.option),
    };
    let custom = map.job.customs.then(|| map.customs[place]);
    let option = usize::from(custom.filter(|custom| *custom != 255).unwrap_or(own));
    let marks = &map.table.marks;
    let (inset, keep) = match option {
        255 => (0, 0),
        _ => (marks[4 * option + 2], marks[4 * option + 3]),
    };
    let (vertices, indices) = match (inset, keep) {
        (0, _) => (corners, 3 * triangles),
        (_, 0) => (2 * corners, 6 * corners),
        _ => (2 * corners, 6 * corners + 3 * triangles),
    };
    CCounts { vertices, indices }
}

/// Whether lists, marks and the numbers of options are as they should be.
fn is_shaped(map: &HeightMap) -> bool {
    let (job, n, options) = (&map.job, count(map), map.table.marks.len() / 4);
    let is_option = |option: &u8| *option == 255 || usize::from(*option) < options;
    let is_choice = |choice: &CChoice| !choice.given || is_option(&choice.option);
    let is_entry = |marks: &[u8]| marks.iter().zip([1, 1, 2, 1]).all(|(x, most)| *x <= most);
    let lengths = [map.cells.len(), map.neighbours.len(), map.corners.len()];
    [1, 2].contains(&job.fringe)
        && n <= 65_536
        && lengths == [27 * n, 6 * n, 12]
        && (job.fringe == 1 || map.fringe.len() == 6 * n)
        && (!job.customs || map.customs.len() == 7 * n && map.customs.iter().all(is_option))
        && options <= 64
        && (map.table.marks.len(), map.table.numbers.len()) == (4 * options, 9 * options)
        && map.table.marks.chunks(4).all(is_entry)
        && is_choice(&job.caps)
        && is_choice(&job.sides)
}

/// Every number that is given.
fn numbers(map: &HeightMap) -> Vec<f32> {
    let CHeightMap { range, origin, .. } = map.job;
    let CPlacement {
        scale,
        turn,
        offset,
    } = map.job.placement;
    let mut numbers = [&map.cells[..], &map.corners, &map.table.numbers].concat();
    let points = [
        (scale.given, scale.value),
        (turn.given, turn.first),
        (turn.given, turn.second),
        (turn.given, turn.third),
        (offset.given, offset.value),
    ];
    let points = points.iter().filter(|(given, _)| *given);
    numbers.extend(points.flat_map(|(_, v)| [v.x, v.y, v.z]));
    numbers.extend([range.min, range.max].iter().filter(|_| range.given));
    let at = [origin.at.x, origin.at.y];
    numbers.extend(at.iter().filter(|_| origin.given));
    numbers.extend(map.fringe.iter().filter(|_| map.job.fringe == 2));
    numbers
}

/// What a map should tell.
pub struct Plain<'a> {
    map: &'a HeightMap,
    /// The plan's.
    pub answer: CAnswer,
    /// None where the map is refused.
    pub names: Vec<Name>,
}

impl Plain<'_> {
    /// The first fault in the order 1, 2, 3, 4 is the answer; else the sums over all faces are.
    pub fn new(map: &HeightMap) -> Plain<'_> {
        let refused = |number| Plain {
            map,
            answer: refused(number),
            names: vec![],
        };
        if !is_shaped(map) {
            return refused(1);
        }
        // A NaN is not below anything.
        if !numbers(map).iter().all(|x| x.abs() <= 1_000_000.0) {
            return refused(2);
        }
        let is_cell = |place: &u32| *place == NOBODY || (*place as usize) < count(map);
        if !map.neighbours.iter().all(is_cell) {
            return refused(3);
        }
        let names = names(map);
        let sizes: Vec<CCounts> = names.iter().map(|name| size(map, *name)).collect();
        let vertices = sizes.iter().map(|size| size.vertices).sum();
        if vertices > 65_536 {
            return refused(4);
        }
        let answer = done(vertices, sizes.iter().map(|size| size.indices).sum());
        Plain { map, answer, names }
    }

    /// The reasons in their order.
    pub fn why(&self, cell: usize, side: usize) -> CWhy {
        let (map, answer) = (self.map, self.answer);
        let told = |reason, height, face| CWhy {
            answer,
            reason,
            height,
            face,
        };
        if answer.number > 0 {
            return no_why(answer.number);
        }
        if cell >= count(map) || side >= 6 {
            return no_why(6);
        }
        if !map.job.sides.given {
            return told(1, 0.0, 0);
        }
        match beyond(map, cell, side) {
            None => told(2, 0.0, 0),
            Some(beyond) if beyond >= height(map, cell) => told(3, beyond, 0),
            Some(_) => {
                let name = Name::Side(cell, side);
                let place = self.names.iter().position(|own| *own == name);
                told(4, 0.0, place.expect("a side that stands is listed"))
            }
        }
    }

    pub fn which(&self, number: usize) -> CWhich {
        let answer = self.answer;
        let told = |kind, side: usize, cell| CWhich {
            answer,
            kind,
            side: side as u32,
            cell,
        };
        match self.names.get(number) {
            _ if answer.number > 0 => no_which(answer.number),
            None => no_which(6),
            Some(Name::Cap(cell)) => told(1, 0, *cell),
            Some(Name::Side(cell, side)) => told(2, *side, *cell),
        }
    }

    /// What the archive tells of a side, if it is something else.
    pub fn side_difference(&self, cell: usize, side: usize) -> Option<String> {
        let (made, wanted) = (self.map.why(cell, side), self.why(cell, side));
        let differs = !is_same_why(made, wanted);
        differs.then(|| format!("why {cell} {side}: {made:?}, not {wanted:?}"))
    }

    /// What the archive tells of a face's number, if it is something else.
    pub fn face_difference(&self, number: usize) -> Option<String> {
        let (made, wanted) = (self.map.which(number), self.which(number));
        let differs = made != wanted;
        differs.then(|| format!("which {number}: {made:?}, not {wanted:?}"))
    }

    /// What the archive itself plans, counts and builds, if it is something else, or if the window of one of these
    /// faces is not that of the cap or side that it tells.
    pub fn mesh_difference(&self, faces: &[usize]) -> Option<String> {
        let (map, answer) = (self.map, self.answer);
        let mut mesh = Mesh::known(needs(answer.vertices, answer.indices));
        let made = (map.plan(), map.faces(), map.build(mesh.all()));
        let faces_told = CFaces {
            answer,
            faces: self.names.len(),
        };
        if made != (answer, faces_told, answer) {
            return Some(format!("{made:?}, not {faces_told:?}"));
        }
        let starts = self.names.iter().scan(CCounts::default(), |at, name| {
            let (size, start) = (size(map, *name), *at);
            at.vertices += size.vertices;
            at.indices += size.indices;
            Some(start)
        });
        let starts: Vec<CCounts> = starts.collect();
        let strange = |face: &&usize| !self.is_built(&mesh, **face, starts[**face]);
        let face = faces.iter().find(strange)?;
        Some(format!("face {face} is not {:?}", map.which(*face)))
    }

    /// Whether a face stands at this start with the size, the corners and the heights of what the archive tells.
    fn is_built(&self, mesh: &Mesh, face: usize, start: CCounts) -> bool {
        let (map, told) = (self.map, self.map.which(face));
        let name = match told.kind {
            1 => Name::Cap(told.cell),
            _ => Name::Side(told.cell, told.side as usize),
        };
        let size = size(map, name);
        let window = CWindow {
            answer: self.answer,
            first_vertex: start.vertices,
            first_index: start.indices,
            vertices: size.vertices,
            indices: size.indices,
        };
        let points = mesh.vertices[3 * start.vertices..].chunks(3);
        let points: Vec<&[f32]> = points.take(size.vertices).collect();
        map.window(face) == window && (is_moved(map) || is_at(map, name, &points))
    }
}

/// Whether a map does not stay where its cells are.
fn is_moved(map: &HeightMap) -> bool {
    let CPlacement {
        scale,
        turn,
        offset,
    } = map.job.placement;
    scale.given || turn.given || offset.given || map.job.origin.given
}

/// All points of a cap are at the cell's height; the corners of a side reach down to the height beyond. What an
/// inset adds comes after the corners.
fn is_at(map: &HeightMap, name: Name, points: &[&[f32]]) -> bool {
    match name {
        Name::Cap(cell) => {
            let [y, x, z] = [0, 1, 2].map(|k| map.cells[27 * cell + k]);
            let corners = map.corners.chunks(2).map(|at| [at[0] + x, y, at[1] + z]);
            points.iter().all(|point| point[1] == y) && corners.eq(points[..6].iter().copied())
        }
        Name::Side(cell, side) => {
            let (top, foot) = (height(map, cell), beyond(map, cell, side));
            let ends = &map.cells[27 * cell + 3 + 4 * side..][..4];
            let corner = |end: usize, y| [ends[2 * end], y, ends[2 * end + 1]];
            let foot = foot.unwrap_or(f32::NAN);
            let corners = [
                corner(1, foot),
                corner(1, top),
                corner(0, top),
                corner(0, foot),
            ];
            foot < top && corners.iter().eq(points[..4].iter().copied())
        }
    }
}
