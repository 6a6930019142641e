//! A plane.

use crate::job::job_made_ready;
use crate::options::Table;
use crate::placement::{placement, vec2};
use crate::range::Tested;
use crate::refusal::{answered, faces_told, window_told};
use crate::{Counts, FaceOptions, Job, Mesh, MeshBuffers, Refusal, Window};
use hosirekar_sys::{
    hosirekar_plane_build, hosirekar_plane_face, hosirekar_plane_faces, hosirekar_plane_plan,
    hosirekar_plane_window, CPlane,
};

/// A hexagon whose normal is up, as hexx's `PlaneMeshBuilder` makes it. It is one face.
///
/// It is scaled, then turned, then moved by its position and offset. Its corners are
/// centre-aligned: `HexLayout::center_aligned_hex_corners` gives them.
///
/// ```
/// use hosirekar::{FaceOptions, InsetOptions, Job, Plane};
///
/// let corners = [[2.0, 0.0], [1.0, 2.0], [-1.0, 2.0], [-2.0, 0.0], [-1.0, -2.0], [1.0, -2.0]];
/// let ring = InsetOptions { scale: 0.5, ..InsetOptions::default() };
/// let plane = Plane {
///     position: [10.0, 0.0],
///     options: FaceOptions { insetting: Some(ring), ..FaceOptions::default() },
///     ..Plane::new(corners)
/// };
/// let mesh = plane.build()?;
/// assert_eq!((mesh.vertices.len(), mesh.indices.len()), (12, 36));
/// assert_eq!([mesh.vertices[0], mesh.vertices[6]], [[12.0, 0.0, 0.0], [11.0, 0.0, 0.0]]);
/// # Ok::<(), hosirekar::Refusal>(())
/// ```
#[derive(Clone, Copy, Debug, Default, PartialEq)]
pub struct Plane {
    /// The corners about the middle of the hexagon, x and z.
    pub corners: [[f32; 2]; 6],
    /// Where the middle goes, x and z.
    pub position: [f32; 2],
    /// What is done to the uvs, and the inset.
    pub options: FaceOptions,
    /// What positions are multiplied by.
    pub scale: Option<[f32; 3]>,
    /// Three rows that positions and normals are multiplied by. Any nine numbers serve.
    pub rotation: Option<[[f32; 3]; 3]>,
    /// What is added beside the position.
    pub offset: Option<[f32; 3]>,
}

impl Plane {
    /// A plane of these corners at (0, 0).
    ///
    /// Corners in turn from the x axis towards the z axis make its triangles face upwards. Its normal
    /// is up in any order.
    #[must_use]
    pub fn new(corners: [[f32; 2]; 6]) -> Self {
        Self {
            corners,
            ..Self::default()
        }
    }

    fn ready(&self) -> Ready<'_> {
        let mut table = Table::default();
        let job = CPlane {
            position: vec2(self.position),
            option: table.add(&self.options),
            placement: placement(self.scale, self.rotation, self.offset),
        };
        Ready {
            job,
            corners: self.corners.as_flattened(),
            table,
        }
    }
}

/// A plane as the archive takes it.
struct Ready<'a> {
    job: CPlane,
    corners: &'a [f32],
    table: Table<1>,
}

impl Job for Ready<'_> {
    fn plan(&self) -> Result<Counts, Refusal> {
        answered(hosirekar_plane_plan(
            self.job,
            self.corners,
            self.table.numbers(),
            self.table.marks(),
        ))
    }

    fn faces(&self) -> Result<usize, Refusal> {
        faces_told(hosirekar_plane_faces(
            self.job,
            self.corners,
            self.table.numbers(),
            self.table.marks(),
        ))
    }

    fn window(&self, face: usize) -> Result<Window, Refusal> {
        window_told(hosirekar_plane_window(
            self.job,
            self.corners,
            self.table.numbers(),
            self.table.marks(),
            face,
        ))
    }

    fn build_into(&self, to: &mut MeshBuffers<'_>) -> Result<Counts, Refusal> {
        answered(hosirekar_plane_build(
            self.job,
            self.corners,
            self.table.numbers(),
            self.table.marks(),
            to.vertices.as_flattened_mut(),
            to.normals.as_flattened_mut(),
            to.uvs.as_flattened_mut(),
            to.indices,
        ))
    }

    fn build_face(&self, face: usize, to: &mut MeshBuffers<'_>) -> Result<Counts, Refusal> {
        answered(hosirekar_plane_face(
            self.job,
            self.corners,
            self.table.numbers(),
            self.table.marks(),
            face,
            to.vertices.as_flattened_mut(),
            to.normals.as_flattened_mut(),
            to.uvs.as_flattened_mut(),
            to.indices,
        ))
    }
}

job_made_ready!(Plane);
