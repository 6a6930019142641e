//! A column.

use crate::job::job_made_ready;
use crate::options::Table;
use crate::placement::{placement, vec2};
use crate::range::Tested;
use crate::refusal::{answered, faces_told, window_told};
use crate::{Counts, FaceOptions, Job, Mesh, MeshBuffers, Refusal, Window};
use hosirekar_sys::{
    hosirekar_column_build, hosirekar_column_face, hosirekar_column_faces, hosirekar_column_plan,
    hosirekar_column_window, CColumn, CSubdivisions,
};

/// A hexagonal column that stands on height 0, as hexx's `ColumnMeshBuilder` makes it.
///
/// Its faces are the parts of side 0 from below, those of sides 1 to 5, the top and the bottom. It
/// is scaled, then turned, then moved by its position and offset.
///
/// Its corners and the ends of its sides are centre-aligned. In hexx they are
/// `HexLayout::center_aligned_hex_corners`, and `HexLayout::hex_edge_corners` of the zero hex with
/// the layout's origin at zero. Every number is tested, those of absent faces too.
///
/// ```
/// use hosirekar::{Column, FaceOptions, Job};
///
/// let corners = [[2.0, 0.0], [1.0, 2.0], [-1.0, 2.0], [-2.0, 0.0], [-1.0, -2.0], [1.0, -2.0]];
/// let mut wall = Column { top: None, bottom: None, ..Column::new(corners, 3.0) };
/// assert_eq!(wall.build()?.vertices.len(), 24);
/// wall.sides = [None; 6];
/// wall.sides[1] = Some(FaceOptions::default());
/// let mesh = wall.build()?;
/// assert_eq!(mesh.vertices, [[-1.0, 0.0, 2.0], [-1.0, 3.0, 2.0], [1.0, 3.0, 2.0], [1.0, 0.0, 2.0]]);
/// assert_eq!(mesh.normals, [[0.0, 0.0, 1.0]; 4]);
/// # Ok::<(), hosirekar::Refusal>(())
/// ```
#[derive(Clone, Copy, Debug, PartialEq)]
pub struct Column {
    /// Of the top.
    pub height: f32,
    /// How many quads lie above one another in a side; none and 0 are 1.
    pub subdivisions: Option<u32>,
    /// The left and the right end of each side, x and z, seen from the middle of the column (axes
    /// right-handed, y up). Its triangles then turn counter-clockwise seen from outside; with the ends
    /// exchanged, clockwise. Its normal is left + right, normalised, in either order.
    pub side_ends: [[[f32; 2]; 2]; 6],
    /// The options of each side that is there.
    pub sides: [Option<FaceOptions>; 6],
    /// The corners of both caps about the middle of the hexagon, x and z.
    pub cap_corners: [[f32; 2]; 6],
    /// The options of the top, if it is there.
    pub top: Option<FaceOptions>,
    /// The options of the bottom, if it is there.
    pub bottom: Option<FaceOptions>,
    /// Where the middle of the bottom goes, x and z.
    pub position: [f32; 2],
    /// What positions are multiplied by.
    pub scale: Option<[f32; 3]>,
    /// Three rows that positions and normals are multiplied by. Any nine numbers serve.
    pub rotation: Option<[[f32; 3]; 3]>,
    /// What is added beside the position.
    pub offset: Option<[f32; 3]>,
}

impl Default for Column {
    /// All faces with the default options, and every number 0: the ends and corners are to be given.
    fn default() -> Self {
        Self {
            height: 0.0,
            subdivisions: None,
            side_ends: Default::default(),
            sides: [Some(FaceOptions::new()); 6],
            cap_corners: Default::default(),
            top: Some(FaceOptions::new()),
            bottom: Some(FaceOptions::new()),
            position: [0.0; 2],
            scale: None,
            rotation: None,
            offset: None,
        }
    }
}

impl Column {
    /// All faces, each side from a corner to the next, at (0, 0).
    ///
    /// Corners in turn from the x axis towards the z axis make the top face upwards and the sides
    /// outwards.
    #[must_use]
    pub fn new(corners: [[f32; 2]; 6], height: f32) -> Self {
        Self {
            height,
            side_ends: std::array::from_fn(|side| [corners[side], corners[(side + 1) % 6]]),
            cap_corners: corners,
            ..Self::default()
        }
    }

    fn ready(&self) -> Ready<'_> {
        let mut table = Table::default();
        let job = CColumn {
            height: self.height,
            subdivisions: CSubdivisions {
                given: self.subdivisions.is_some(),
                number: self.subdivisions.unwrap_or_default(),
            },
            sides: std::array::from_fn(|side| table.choice(&self.sides[side])),
            top: table.choice(&self.top),
            bottom: table.choice(&self.bottom),
            position: vec2(self.position),
            placement: placement(self.scale, self.rotation, self.offset),
        };
        Ready {
            job,
            ends: self.side_ends.as_flattened().as_flattened(),
            corners: self.cap_corners.as_flattened(),
            table,
        }
    }
}

/// Six sides and two caps may have options of their own.
const FACES: usize = 8;

/// A column as the archive takes it.
struct Ready<'a> {
    job: CColumn,
    ends: &'a [f32],
    corners: &'a [f32],
    table: Table<FACES>,
}

impl Job for Ready<'_> {
    fn plan(&self) -> Result<Counts, Refusal> {
        answered(hosirekar_column_plan(
            self.job,
            self.ends,
            self.corners,
            self.table.numbers(),
            self.table.marks(),
        ))
    }

    fn faces(&self) -> Result<usize, Refusal> {
        faces_told(hosirekar_column_faces(
            self.job,
            self.ends,
            self.corners,
            self.table.numbers(),
            self.table.marks(),
        ))
    }

    fn window(&self, face: usize) -> Result<Window, Refusal> {
        window_told(hosirekar_column_window(
            self.job,
            self.ends,
            self.corners,
            self.table.numbers(),
            self.table.marks(),
            face,
        ))
    }

    fn build_into(&self, to: &mut MeshBuffers<'_>) -> Result<Counts, Refusal> {
        answered(hosirekar_column_build(
            self.job,
            self.ends,
            self.corners,
            self.table.numbers(),
            self.table.marks(),
            to.vertices.as_flattened_mut(),
            to.normals.as_flattened_mut(),
            to.uvs.as_flattened_mut(),
            to.indices,
        ))
    }

    fn build_face(&self, face: usize, to: &mut MeshBuffers<'_>) -> Result<Counts, Refusal> {
        answered(hosirekar_column_face(
            self.job,
            self.ends,
            self.corners,
            self.table.numbers(),
            self.table.marks(),
            face,
            to.vertices.as_flattened_mut(),
            to.normals.as_flattened_mut(),
            to.uvs.as_flattened_mut(),
            to.indices,
        ))
    }
}

job_made_ready!(Column);
