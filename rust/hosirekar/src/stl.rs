//! Meshes as binary STL files, which mills and slicers take.

use crate::refusal::answered;
use crate::{Counts, Mesh, MeshBuffers, Refusal};
use hosirekar_sys::{hosirekar_stl_read, hosirekar_stl_write};
use std::io::{self, ErrorKind, Write};

/// Binary STL files: 80 bytes of header, the number of triangles in 32 bits, and 50 bytes a triangle, which
/// are its normal, its three corners and two bytes of attributes. All numbers are little-endian.
///
/// A file is written with its header and its attributes zero, and it has nothing of the uvs. Every NaN is
/// written as one pattern; all other numbers go over and come back bit for bit. So a file has y up as the mesh
/// has, unless the job is turned by its rotation, and the walls of a map have normals that are not outward: the
/// winding of a triangle tells its outside.
impl Mesh {
    /// The mesh as a binary STL file: each triangle with its corners and the normal of its first vertex.
    ///
    /// ```
    /// use hosirekar::{Job, Plane};
    ///
    /// let corners = [[2.0, 0.0], [1.0, 2.0], [-1.0, 2.0], [-2.0, 0.0], [-1.0, -2.0], [1.0, -2.0]];
    /// let file = Plane::new(corners).build()?.to_stl()?;
    /// // Four triangles.
    /// assert_eq!(file.len(), 84 + 4 * 50);
    /// assert_eq!(file[80..84], [4, 0, 0, 0]);
    /// // The second number of the first normal, which is upwards.
    /// assert_eq!(file[88..92], 1.0f32.to_le_bytes());
    /// # Ok::<(), hosirekar::Refusal>(())
    /// ```
    ///
    /// # Errors
    ///
    /// [`Shape`](Refusal::Shape), [`Limit`](Refusal::Limit), [`Index`](Refusal::Index),
    /// [`Triangles`](Refusal::Triangles), in this order.
    pub fn to_stl(&self) -> Result<Vec<u8>, Refusal> {
        let mut bytes = Vec::new();
        // Without room the call says whether room is all that is wanting, and how much.
        let answer = match self.stl_into(&mut bytes) {
            Err(Refusal::Bytes { need }) => {
                bytes = vec![0; need];
                self.stl_into(&mut bytes)
            }
            answer => answer,
        };
        answer.map(|_| bytes)
    }

    /// Writes the mesh as a binary STL file, and flushes what it writes to. The file is made whole before,
    /// so that a mesh that is refused writes nothing.
    ///
    /// ```
    /// use hosirekar::{layout::Layout, Column, Job};
    ///
    /// let column = Column::new(Layout::flat().center_aligned_corners(), 2.0).build()?;
    /// // A `std::fs::File` does as well.
    /// let mut file = Vec::new();
    /// column.write_stl(&mut file)?;
    /// assert_eq!(file, column.to_stl()?);
    /// # Ok::<(), Box<dyn std::error::Error>>(())
    /// ```
    ///
    /// # Errors
    ///
    /// Those of the writer, and as an error of kind [`InvalidInput`](ErrorKind::InvalidInput) those of
    /// [`to_stl`](Mesh::to_stl):
    ///
    /// ```
    /// use hosirekar::{Mesh, Refusal};
    /// use std::io::ErrorKind;
    ///
    /// let mesh = Mesh { indices: vec![0, 0, 0], ..Mesh::default() };
    /// let why = mesh.write_stl(Vec::new()).unwrap_err();
    /// assert_eq!(why.kind(), ErrorKind::InvalidInput);
    /// assert_eq!(why.downcast::<Refusal>()?, Refusal::Index);
    /// # Ok::<(), std::io::Error>(())
    /// ```
    pub fn write_stl(&self, mut writer: impl Write) -> io::Result<()> {
        let refused = |why| io::Error::new(ErrorKind::InvalidInput, why);
        let bytes = self.to_stl().map_err(refused)?;
        writer.write_all(&bytes)?;
        writer.flush()
    }

    /// The mesh of a binary STL file. Each triangle has three vertices of its own, in the order of the file,
    /// with its normal and a uv of zeros. The header and the attributes are not looked at.
    ///
    /// ```
    /// use hosirekar::{CheapColumn, Job, Mesh};
    ///
    /// let corners = [[2.0, 0.0], [1.0, 2.0], [-1.0, 2.0], [-2.0, 0.0], [-1.0, -2.0], [1.0, -2.0]];
    /// let column = CheapColumn { corners, ..CheapColumn::default() }.build()?;
    /// let mesh = Mesh::from_stl(&column.to_stl()?)?;
    /// // Sixteen triangles of twelve vertices; no two of the mesh that is read share one.
    /// assert_eq!((column.vertices.len(), mesh.vertices.len()), (12, 48));
    /// for (corner, index) in column.indices.iter().enumerate() {
    ///     assert_eq!(mesh.vertices[corner], column.vertices[usize::from(*index)]);
    /// }
    /// # Ok::<(), hosirekar::Refusal>(())
    /// ```
    ///
    /// # Errors
    ///
    /// [`File`](Refusal::File) if the bytes are no such file, and then [`Limit`](Refusal::Limit) of more
    /// than 21,845 triangles, which have more than 65,536 corners.
    pub fn from_stl(bytes: &[u8]) -> Result<Mesh, Refusal> {
        let mut mesh = Mesh::default();
        // Without room the call says whether room is all that is wanting, and how much.
        let answer = match read_into(bytes, &mut mesh.buffers()) {
            Err(Refusal::Room { buffer, need }) => {
                let vertices = need / buffer.width();
                mesh = Mesh::zeroed(Counts {
                    vertices,
                    indices: vertices,
                })?;
                read_into(bytes, &mut mesh.buffers())
            }
            answer => answer,
        };
        answer.map(|_| mesh)
    }

    /// Writes the file to the front of these bytes.
    fn stl_into(&self, bytes: &mut [u8]) -> Result<Counts, Refusal> {
        let file = hosirekar_stl_write(
            self.counts()?.into(),
            self.vertices.as_flattened(),
            self.normals.as_flattened(),
            self.uvs.as_flattened(),
            &self.indices,
            bytes,
        );
        answered(file.answer)
    }
}

/// Reads a file to the front of these buffers.
fn read_into(bytes: &[u8], to: &mut MeshBuffers<'_>) -> Result<Counts, Refusal> {
    answered(hosirekar_stl_read(
        bytes,
        to.vertices.as_flattened_mut(),
        to.normals.as_flattened_mut(),
        to.uvs.as_flattened_mut(),
        to.indices,
    ))
}
