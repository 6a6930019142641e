//! What every job can be asked.

use crate::{Counts, Mesh, MeshBuffers, Refusal, Window};

/// A [`Plane`](crate::Plane), a [`Column`](crate::Column), a [`CheapColumn`](crate::CheapColumn) or a
/// [`HeightMap`](crate::HeightMap).
///
/// Every call on a height map may also be refused for its lists ([`Shape`](Refusal::Shape)), which
/// comes before all else, and for a neighbour that is no cell ([`Neighbour`](Refusal::Neighbour)),
/// which comes after the [`Range`](Refusal::Range).
pub trait Job {
    /// How many vertices and indices the whole mesh has.
    ///
    /// # Errors
    ///
    /// [`Range`](Refusal::Range), [`Limit`](Refusal::Limit).
    fn plan(&self) -> Result<Counts, Refusal>;

    /// How many faces the job has. They are numbered from 0.
    ///
    /// # Errors
    ///
    /// Those of [`plan`](Job::plan).
    fn faces(&self) -> Result<usize, Refusal>;

    /// Which places of the whole mesh are those of one face: what [`build_face`](Job::build_face)
    /// writes. Windows lie end to end in the order of the faces.
    ///
    /// ```
    /// use hosirekar::{Column, Job};
    ///
    /// let corners = [[2.0, 0.0], [1.0, 2.0], [-1.0, 2.0], [-2.0, 0.0], [-1.0, -2.0], [1.0, -2.0]];
    /// let column = Column::new(corners, 5.0);
    /// assert_eq!(column.faces()?, 8);
    /// // Six sides of four vertices and six indices come before the top.
    /// let top = column.window(6)?;
    /// assert_eq!((top.vertices, top.indices), (24..30, 36..48));
    /// # Ok::<(), hosirekar::Refusal>(())
    /// ```
    ///
    /// # Errors
    ///
    /// Those of [`plan`](Job::plan), then [`NoFace`](Refusal::NoFace).
    fn window(&self, face: usize) -> Result<Window, Refusal>;

    /// Writes the whole mesh to the front of lent buffers; what lies past the counts stays.
    ///
    /// ```
    /// use hosirekar::{Job, MeshBuffers, Plane};
    ///
    /// let corners = [[2.0, 0.0], [1.0, 2.0], [-1.0, 2.0], [-2.0, 0.0], [-1.0, -2.0], [1.0, -2.0]];
    /// let (mut vertices, mut normals) = ([[9.0; 3]; 8], [[9.0; 3]; 8]);
    /// let (mut uvs, mut indices) = ([[9.0; 2]; 8], [9; 16]);
    /// let mut buffers = MeshBuffers {
    ///     vertices: &mut vertices,
    ///     normals: &mut normals,
    ///     uvs: &mut uvs,
    ///     indices: &mut indices,
    /// };
    /// let counts = Plane::new(corners).build_into(&mut buffers)?;
    /// assert_eq!((counts.vertices, counts.indices), (6, 12));
    /// assert_eq!(vertices[5..7], [[1.0, 0.0, -2.0], [9.0; 3]]);
    /// # Ok::<(), hosirekar::Refusal>(())
    /// ```
    ///
    /// # Errors
    ///
    /// [`Range`](Refusal::Range), [`Limit`](Refusal::Limit), [`Room`](Refusal::Room).
    fn build_into(&self, to: &mut MeshBuffers<'_>) -> Result<Counts, Refusal>;

    /// Writes one face to its places in the whole mesh, and nothing else. The counts are those of
    /// the whole mesh, for which the buffers must have room.
    ///
    /// ```
    /// use hosirekar::{Column, Job, Mesh, Refusal};
    ///
    /// let corners = [[2.0, 0.0], [1.0, 2.0], [-1.0, 2.0], [-2.0, 0.0], [-1.0, -2.0], [1.0, -2.0]];
    /// let column = Column::new(corners, 5.0);
    /// let mut mesh = Mesh::zeroed(column.plan()?)?;
    /// // Any order will do, and a face may be written twice.
    /// for face in [7, 0, 3, 6, 2, 1, 3, 5, 4] {
    ///     column.build_face(face, &mut mesh.buffers())?;
    /// }
    /// assert_eq!(column.build_face(8, &mut mesh.buffers()), Err(Refusal::NoFace));
    /// assert_eq!(mesh, column.build()?);
    /// # Ok::<(), hosirekar::Refusal>(())
    /// ```
    ///
    /// # Errors
    ///
    /// [`Range`](Refusal::Range), [`Limit`](Refusal::Limit), [`NoFace`](Refusal::NoFace),
    /// [`Room`](Refusal::Room).
    fn build_face(&self, face: usize, to: &mut MeshBuffers<'_>) -> Result<Counts, Refusal>;

    /// The whole mesh, in lists of exactly the planned lengths.
    ///
    /// # Errors
    ///
    /// [`Range`](Refusal::Range), [`Limit`](Refusal::Limit).
    fn build(&self) -> Result<Mesh, Refusal> {
        let mut mesh = Mesh::zeroed(self.plan()?)?;
        self.build_into(&mut mesh.buffers())?;
        Ok(mesh)
    }

    /// Appends the whole mesh to another: [`Mesh::add`] says how.
    ///
    /// # Errors
    ///
    /// [`Shape`](Refusal::Shape) of that mesh, [`Range`](Refusal::Range), [`Limit`](Refusal::Limit).
    fn add_to(&self, mesh: &mut Mesh) -> Result<Counts, Refusal> {
        let target = mesh.counts()?;
        mesh.append(target, self.plan()?, |to| self.build_into(to))
    }
}

/// A job whose lists are made ready once for each call on it, and which has the names of its numbers.
macro_rules! job_made_ready {
    ($job:ty) => {
        impl Job for $job {
            fn plan(&self) -> Result<Counts, Refusal> {
                self.name_stray(self.ready().plan())
            }

            fn faces(&self) -> Result<usize, Refusal> {
                self.name_stray(self.ready().faces())
            }

            fn window(&self, face: usize) -> Result<Window, Refusal> {
                self.name_stray(self.ready().window(face))
            }

            fn build_into(&self, to: &mut MeshBuffers<'_>) -> Result<Counts, Refusal> {
                self.name_stray(self.ready().build_into(to))
            }

            fn build_face(&self, face: usize, to: &mut MeshBuffers<'_>) -> Result<Counts, Refusal> {
                self.name_stray(self.ready().build_face(face, to))
            }

            fn build(&self) -> Result<Mesh, Refusal> {
                self.name_stray(self.ready().build())
            }

            fn add_to(&self, mesh: &mut Mesh) -> Result<Counts, Refusal> {
                self.name_stray(self.ready().add_to(mesh))
            }
        }
    };
}
pub(crate) use job_made_ready;
