//! A height map.

use crate::job::job_made_ready;
use crate::options::{Table, DEFAULT};
use crate::placement::{placement, vec2};
use crate::range::Tested;
use crate::refusal::{answered, faces_told, window_told};
use crate::{Counts, FaceOptions, Job, Mesh, MeshBuffers, Refusal, Window};
use hosirekar_sys::{
    hosirekar_heightmap_build, hosirekar_heightmap_face, hosirekar_heightmap_faces,
    hosirekar_heightmap_plan, hosirekar_heightmap_window, CHeightMap, COrigin, CRange,
};
use std::ops::RangeInclusive;

/// A map of hexagon cells with a height each, as hexx's `HeightMapMeshBuilder` makes it.
///
/// Its faces are those of each cell in the order supplied: the cap at the cell's height, then, of
/// sides 0 to 5, those beyond which it is lower. They reach down to the height beyond: that of the
/// neighbour, or of the [`fringe`](HeightMap::fringe) where there is no neighbour. All is scaled,
/// then turned, then moved by the offset and by the origin, each if given.
///
/// [`why`](HeightMap::why) tells of a side why it has no wall, and [`which`](HeightMap::which) what a
/// face's number stands for.
///
/// [`from_heights`](HeightMap::from_heights) makes the cells from axial coordinates and a
/// [`Layout`](crate::layout::Layout).
///
/// ```
/// use hosirekar::{layout::Layout, Fringe, HeightMap, Job};
///
/// let heights = [((0, 0), 3.0), ((1, 0), 1.0), ((0, 1), 2.0)];
/// let mut map = HeightMap::from_heights(&Layout::flat(), heights)?;
/// // Three caps, and a wall between each two of them.
/// assert_eq!(map.build()?.vertices.len(), 3 * 6 + 3 * 4);
/// // With a height of 0 beyond the edge there are walls all about.
/// map.fringe = Fringe::Heights(vec![[0.0; 6]; 3]);
/// assert_eq!(map.build()?.vertices.len(), 3 * 6 + (3 + 12) * 4);
/// # Ok::<(), Box<dyn std::error::Error>>(())
/// ```
///
/// # From hexx
///
/// | in hexx | here |
/// |---|---|
/// | `HeightMapMeshBuilder::new(&layout, &map)` | [`HeightMap::from_heights`], or [`HeightMap::new`] with cells of your own |
/// | `with_height_range(0.0..=5.0)` | `height_range: Some(0.0..=5.0)` |
/// | `with_scale(scale)`, `with_offset(offset)` | `scale: Some(scale.into())`, `offset: Some(offset.into())` |
/// | `with_rotation(rotation)` | `rotation: Some(Mat3::from_quat(rotation).transpose().to_cols_array_2d())` |
/// | `without_top_face()`, `without_sides()` | `caps: None`, `sides: None` |
/// | `with_cap_options(options)`, `with_side_options(options)` | `caps: Some(options)`, `sides: Some(options)` |
/// | `with_cap_uv_options(uv)`, `with_cap_inset_options(inset)` | the `uv` and the `insetting` of `caps` |
/// | `with_custom_cap_options(f)`, `with_custom_sides_options(f)` | `custom_options: Some(list)`, a [`CellOptions`] for each cell |
/// | `with_fringe_heights(f)` | `fringe: Fringe::Heights(list)`, for each cell `f` of its six [`neighbours`](crate::layout::neighbours) |
/// | `with_default_height(height)` | `fringe: Fringe::Heights(vec![[height; 6]; cells])` |
/// | `center_aligned()` | `origin: None` |
/// | `build()` | [`build`](Job::build) |
#[derive(Clone, Debug, PartialEq)]
pub struct HeightMap {
    /// The cells, at most 65,536.
    pub cells: Vec<Cell>,
    /// The corners of every cap about the middle of its cell, x and z.
    pub cap_corners: [[f32; 2]; 6],
    /// The options of the caps, if there are caps.
    pub caps: Option<FaceOptions>,
    /// The options of the sides, if there are sides.
    pub sides: Option<FaceOptions>,
    /// Options of single faces, an entry for each cell. A map has at most 64 different ones, with
    /// those of the caps and the sides.
    pub custom_options: Option<Vec<CellOptions>>,
    /// What lies beyond a side without a neighbour.
    pub fringe: Fringe,
    /// The heights that a side's v goes from 0 to 1 over, or those of all cells. Where both ends are
    /// equal, v is NaN or infinite.
    pub height_range: Option<RangeInclusive<f32>>,
    /// What is added last, x and z; without it the map is centred.
    pub origin: Option<[f32; 2]>,
    /// What positions are multiplied by.
    pub scale: Option<[f32; 3]>,
    /// Three rows that positions and normals are multiplied by. Any nine numbers serve.
    pub rotation: Option<[[f32; 3]; 3]>,
    /// What is added before the origin.
    pub offset: Option<[f32; 3]>,
}

/// A cell of a [`HeightMap`]. Its places are those of the map before the origin is added.
#[derive(Clone, Copy, Debug, Default, PartialEq)]
pub struct Cell {
    /// Of its cap.
    pub height: f32,
    /// The middle of its cap, x and z.
    pub position: [f32; 2],
    /// The left and the right end of each side, x and z, seen from the middle of the cell (axes
    /// right-handed, y up), where the cell stands. A wall's triangles then turn counter-clockwise seen
    /// from outside. Its normal is left + right, normalised, as in hexx: the way from the middle of the
    /// map to the wall, which is not always outwards.
    pub side_ends: [[[f32; 2]; 2]; 6],
    /// The cell beyond each side by its place among the cells, if there is one.
    pub neighbours: [Option<usize>; 6],
}

/// What lies beyond the sides that have no neighbour.
#[derive(Clone, Debug, Default, PartialEq)]
#[non_exhaustive]
pub enum Fringe {
    /// Nothing: such a side has no wall.
    #[default]
    None,
    /// Six heights for each cell, one a side. Those of sides with a neighbour are not used; they are
    /// tested, as every number is.
    Heights(Vec<[f32; 6]>),
}

/// Options of the single faces of a cell; what is left out is the map's own.
///
/// They change how a face looks and never whether it is there: a map without caps has none for
/// custom options either.
#[derive(Clone, Copy, Debug, Default, PartialEq)]
pub struct CellOptions {
    /// Of the cap.
    pub cap: Option<FaceOptions>,
    /// Of each side.
    pub sides: [Option<FaceOptions>; 6],
}

impl Default for HeightMap {
    /// No cells, with caps and sides of the default options, nothing beyond the edge, and centred.
    fn default() -> Self {
        Self {
            cells: Vec::new(),
            cap_corners: Default::default(),
            caps: Some(FaceOptions::new()),
            sides: Some(FaceOptions::new()),
            custom_options: None,
            fringe: Fringe::default(),
            height_range: None,
            origin: None,
            scale: None,
            rotation: None,
            offset: None,
        }
    }
}

/// The most cells of a map.
const MOST_CELLS: usize = 65_536;

/// The most options of a map.
const MOST_OPTIONS: usize = 64;

/// The number for no neighbour.
const NONE: u32 = u32::MAX;

/// The number for a neighbour that is no cell of any map.
const ASTRAY: u32 = u32::MAX - 1;

impl Cell {
    fn numbers(&self) -> [f32; 27] {
        let [x, z] = self.position;
        let mut numbers = [0.0; 27];
        numbers[..3].copy_from_slice(&[self.height, x, z]);
        numbers[3..].copy_from_slice(self.side_ends.as_flattened().as_flattened());
        numbers
    }

    /// No place among cells is turned into the number for none.
    fn beyond(&self) -> [u32; 6] {
        self.neighbours.map(|neighbour| match neighbour {
            None => NONE,
            Some(place) => u32::try_from(place).unwrap_or(ASTRAY).min(ASTRAY),
        })
    }
}

impl CellOptions {
    fn numbers(&self, table: &mut Table<MOST_OPTIONS>) -> [u8; 7] {
        let [a, b, c, d, e, f] = &self.sides;
        [&self.cap, a, b, c, d, e, f]
            .map(|options| options.as_ref().map_or(DEFAULT, |own| table.entry(own)))
    }
}

impl HeightMap {
    /// A centred map of these cells, with caps and sides of the default options and nothing beyond
    /// its edge.
    ///
    /// Corners in turn from the x axis towards the z axis make the caps face upwards.
    #[must_use]
    pub fn new(cap_corners: [[f32; 2]; 6], cells: Vec<Cell>) -> Self {
        Self {
            cells,
            cap_corners,
            ..Self::default()
        }
    }

    /// The map with its cells copied into the lists that the archive takes.
    ///
    /// Each call on a map makes them; each call on what this gives uses them again, so that many
    /// [`build_face`](Job::build_face) of a large map copy its cells once.
    ///
    /// ```
    /// use hosirekar::{layout::Layout, HeightMap, Job, Mesh};
    ///
    /// let map = HeightMap::from_heights(&Layout::flat(), [((0, 0), 3.0), ((1, 0), 1.0)])?;
    /// let ready = map.ready();
    /// let mut mesh = Mesh::zeroed(ready.plan()?)?;
    /// for face in [2, 0, 1] {
    ///     ready.build_face(face, &mut mesh.buffers())?;
    /// }
    /// assert_eq!(mesh, map.build()?);
    /// # Ok::<(), Box<dyn std::error::Error>>(())
    /// ```
    #[must_use]
    pub fn ready(&self) -> ReadyHeightMap<'_> {
        // One cell or entry too many is refused, whatever comes after it.
        let cells = &self.cells[..self.cells.len().min(MOST_CELLS + 1)];
        let mut table = Table::default();
        let job = self.job(&mut table);
        let customs = self.custom_options.iter().flatten().take(MOST_CELLS + 1);
        ReadyHeightMap {
            map: self,
            job,
            cells: cells.iter().map(Cell::numbers).collect(),
            neighbours: cells.iter().map(Cell::beyond).collect(),
            customs: customs.map(|own| own.numbers(&mut table)).collect(),
            table,
        }
    }

    fn job(&self, table: &mut Table<MOST_OPTIONS>) -> CHeightMap {
        let range = self.height_range.as_ref();
        CHeightMap {
            caps: table.choice(&self.caps),
            sides: table.choice(&self.sides),
            customs: self.custom_options.is_some(),
            fringe: match self.fringe {
                Fringe::None => 1,
                Fringe::Heights(_) => 2,
            },
            range: CRange {
                given: range.is_some(),
                min: range.map_or(0.0, |range| *range.start()),
                max: range.map_or(0.0, |range| *range.end()),
            },
            origin: COrigin {
                given: self.origin.is_some(),
                at: vec2(self.origin.unwrap_or_default()),
            },
            placement: placement(self.scale, self.rotation, self.offset),
        }
    }
}

/// A [`HeightMap`] whose cells stand in the lists that the archive takes: [`HeightMap::ready`].
#[derive(Clone, Debug)]
pub struct ReadyHeightMap<'a> {
    pub(crate) map: &'a HeightMap,
    pub(crate) job: CHeightMap,
    pub(crate) cells: Vec<[f32; 27]>,
    pub(crate) neighbours: Vec<[u32; 6]>,
    pub(crate) customs: Vec<[u8; 7]>,
    pub(crate) table: Table<MOST_OPTIONS>,
}

impl ReadyHeightMap<'_> {
    pub(crate) fn fringe(&self) -> &[f32] {
        match &self.map.fringe {
            Fringe::None => &[],
            Fringe::Heights(heights) => heights.as_flattened(),
        }
    }
}

impl Job for ReadyHeightMap<'_> {
    fn plan(&self) -> Result<Counts, Refusal> {
        self.map.name_stray(answered(hosirekar_heightmap_plan(
            self.job,
            self.cells.as_flattened(),
            self.neighbours.as_flattened(),
            self.fringe(),
            self.customs.as_flattened(),
            self.map.cap_corners.as_flattened(),
            self.table.numbers(),
            self.table.marks(),
        )))
    }

    fn faces(&self) -> Result<usize, Refusal> {
        self.map.name_stray(faces_told(hosirekar_heightmap_faces(
            self.job,
            self.cells.as_flattened(),
            self.neighbours.as_flattened(),
            self.fringe(),
            self.customs.as_flattened(),
            self.map.cap_corners.as_flattened(),
            self.table.numbers(),
            self.table.marks(),
        )))
    }

    fn window(&self, face: usize) -> Result<Window, Refusal> {
        self.map.name_stray(window_told(hosirekar_heightmap_window(
            self.job,
            self.cells.as_flattened(),
            self.neighbours.as_flattened(),
            self.fringe(),
            self.customs.as_flattened(),
            self.map.cap_corners.as_flattened(),
            self.table.numbers(),
            self.table.marks(),
            face,
        )))
    }

    fn build_into(&self, to: &mut MeshBuffers<'_>) -> Result<Counts, Refusal> {
        self.map.name_stray(answered(hosirekar_heightmap_build(
            self.job,
            self.cells.as_flattened(),
            self.neighbours.as_flattened(),
            self.fringe(),
            self.customs.as_flattened(),
            self.map.cap_corners.as_flattened(),
            self.table.numbers(),
            self.table.marks(),
            to.vertices.as_flattened_mut(),
            to.normals.as_flattened_mut(),
            to.uvs.as_flattened_mut(),
            to.indices,
        )))
    }

    fn build_face(&self, face: usize, to: &mut MeshBuffers<'_>) -> Result<Counts, Refusal> {
        self.map.name_stray(answered(hosirekar_heightmap_face(
            self.job,
            self.cells.as_flattened(),
            self.neighbours.as_flattened(),
            self.fringe(),
            self.customs.as_flattened(),
            self.map.cap_corners.as_flattened(),
            self.table.numbers(),
            self.table.marks(),
            face,
            to.vertices.as_flattened_mut(),
            to.normals.as_flattened_mut(),
            to.uvs.as_flattened_mut(),
            to.indices,
        )))
    }
}

job_made_ready!(HeightMap);
