//! A mesh, the buffers that one is written to, and what is done with one that is made.

use crate::placement::{vec2, vec3};
use crate::range::{Field, Named, Tested};
use crate::refusal::answered;
use crate::{Job, Refusal};
use hosirekar_sys::{
    hosirekar_centroid, hosirekar_merge, hosirekar_offset, hosirekar_scale,
    hosirekar_texture_scale, hosirekar_uv_centroid, CCounts,
};
use std::ops::Range;

/// How many vertices and indices a mesh has.
#[derive(Clone, Copy, Debug, Default, PartialEq, Eq, Hash)]
pub struct Counts {
    /// As many normals and uvs belong to them.
    pub vertices: usize,
    /// Three for each triangle.
    pub indices: usize,
}

/// Which places of a mesh are those of one face.
#[derive(Clone, Debug, Default, PartialEq, Eq, Hash)]
pub struct Window {
    /// Of its vertices, with their normals and uvs.
    pub vertices: Range<usize>,
    /// Of its indices, which name these vertices alone.
    pub indices: Range<usize>,
}

/// A mesh: a position, a normal and a uv for each vertex, and triangles by vertex numbers.
///
/// The number of its positions is that of its vertices. Where the normals or the uvs are not as
/// many, every call on the mesh is refused as a [`Shape`](Refusal::Shape), but for
/// [`buffers`](Mesh::buffers), which lends the lists as they are.
///
/// ```
/// use hosirekar::{CheapColumn, Job, Plane};
///
/// let corners = [[2.0, 0.0], [1.0, 2.0], [-1.0, 2.0], [-2.0, 0.0], [-1.0, -2.0], [1.0, -2.0]];
/// let mut mesh = Plane::new(corners).build()?.with_offset([0.0, 4.5, 0.0])?;
/// mesh.merge_with(&CheapColumn { corners, ..CheapColumn::default() }.build()?)?;
/// assert_eq!((mesh.vertices.len(), mesh.indices.len()), (18, 60));
/// // The first triangle of the merged mesh, 0 2 1, now names its own vertices.
/// assert_eq!(mesh.indices[12..15], [6, 8, 7]);
/// assert_eq!(mesh.centroid()?, [0.0, 1.5, 0.0]);
/// # Ok::<(), hosirekar::Refusal>(())
/// ```
#[derive(Clone, Debug, Default, PartialEq)]
pub struct Mesh {
    /// The positions.
    pub vertices: Vec<[f32; 3]>,
    /// The normal of each vertex.
    pub normals: Vec<[f32; 3]>,
    /// The uv of each vertex.
    pub uvs: Vec<[f32; 2]>,
    /// Three vertex numbers for each triangle.
    pub indices: Vec<u16>,
}

/// Four lists that are lent to be written to. They may be longer than the mesh.
#[derive(Debug)]
pub struct MeshBuffers<'a> {
    /// For the positions.
    pub vertices: &'a mut [[f32; 3]],
    /// For the normals.
    pub normals: &'a mut [[f32; 3]],
    /// For the uvs.
    pub uvs: &'a mut [[f32; 2]],
    /// For the indices.
    pub indices: &'a mut [u16],
}

/// The bytes up to which a list is cheaper to fill than to get filled.
const SHORT: usize = 1 << 15;

/// So many of a zero.
fn zeros<T: Copy>(zero: T, count: usize) -> Vec<T> {
    if count > SHORT / size_of::<T>() {
        return vec![zero; count];
    }
    let mut list = Vec::with_capacity(count);
    list.resize(count, zero);
    list
}

/// The most vertices of a plan.
const MOST_VERTICES: usize = 65_536;

/// The most indices of a plan: four a vertex.
const MOST_INDICES: usize = 4 * MOST_VERTICES;

impl Mesh {
    /// A mesh of so many vertices and indices, all 0, to be written to.
    ///
    /// # Errors
    ///
    /// [`Limit`](Refusal::Limit) above 65,536 vertices or 262,144 indices, which no plan has: nothing
    /// is allocated for such counts.
    pub fn zeroed(counts: Counts) -> Result<Self, Refusal> {
        counts.lawful()?;
        Ok(Self {
            vertices: zeros([0.0; 3], counts.vertices),
            normals: zeros([0.0; 3], counts.vertices),
            uvs: zeros([0.0; 2], counts.vertices),
            indices: zeros(0, counts.indices),
        })
    }

    /// Its lists, lent.
    pub fn buffers(&mut self) -> MeshBuffers<'_> {
        MeshBuffers {
            vertices: &mut self.vertices,
            normals: &mut self.normals,
            uvs: &mut self.uvs,
            indices: &mut self.indices,
        }
    }

    /// How many vertices and indices it has.
    ///
    /// # Errors
    ///
    /// [`Shape`](Refusal::Shape).
    pub fn counts(&self) -> Result<Counts, Refusal> {
        let vertices = self.vertices.len();
        if self.normals.len() != vertices || self.uvs.len() != vertices {
            return Err(Refusal::Shape);
        }
        Ok(Counts {
            vertices,
            indices: self.indices.len(),
        })
    }

    /// Appends a mesh. Its indices are raised so that its triangles stay.
    ///
    /// # Errors
    ///
    /// [`Shape`](Refusal::Shape) of either, [`Index`](Refusal::Index) of the one appended,
    /// [`Limit`](Refusal::Limit).
    pub fn merge_with(&mut self, rhs: &Mesh) -> Result<Counts, Refusal> {
        let (target, source) = (self.counts()?, rhs.counts()?);
        let rhs = rhs.lists();
        // Without more room the call says whether room is all that is wanting.
        match merge(rhs, &mut self.buffers(), target) {
            Err(Refusal::Room { .. }) => {
                self.resize(target.and(source));
                merge(rhs, &mut self.buffers(), target)
            }
            answer => answer,
        }
    }

    /// Appends the mesh of a job, as `merge_with(&job.build()?)` does.
    ///
    /// The job is built at the end of this mesh's own lists, past the room where it is merged to. That
    /// room stays theirs, so that many jobs cost few allocations.
    ///
    /// ```
    /// use hosirekar::{layout::Layout, Column, Job, Mesh};
    ///
    /// let layout = Layout::flat();
    /// let mut mesh = Mesh::default();
    /// for hex in [(0, 0), (1, 0), (0, 1)] {
    ///     let column = Column::new(layout.center_aligned_corners(), 2.0);
    ///     mesh.add(&Column { position: layout.position(hex), ..column })?;
    /// }
    /// assert_eq!(mesh.vertices.len(), 3 * 36);
    /// # Ok::<(), hosirekar::Refusal>(())
    /// ```
    ///
    /// # Errors
    ///
    /// [`Shape`](Refusal::Shape) of this mesh, those of the job's [`build`](Job::build), and
    /// [`Limit`](Refusal::Limit) of both together.
    pub fn add(&mut self, job: &(impl Job + ?Sized)) -> Result<Counts, Refusal> {
        job.add_to(self)
    }

    /// Appends to this mesh of so many what a job of so many builds.
    pub(crate) fn append(
        &mut self,
        target: Counts,
        source: Counts,
        build: impl FnOnce(&mut MeshBuffers<'_>) -> Result<Counts, Refusal>,
    ) -> Result<Counts, Refusal> {
        // Nothing is allocated for what no plan has or what the merge would refuse.
        source.lawful()?;
        let merged = target.and(source);
        if merged.vertices > MOST_VERTICES {
            return Err(Refusal::Limit);
        }
        self.resize(merged.and(source));
        let (mut front, mut end) = self.buffers().split(merged);
        let answer = build(&mut end).and_then(|_| merge(end.lists(), &mut front, target));
        self.resize(if answer.is_ok() { merged } else { target });
        answer
    }

    /// Multiplies each position.
    ///
    /// # Errors
    ///
    /// [`Shape`](Refusal::Shape), [`Range`](Refusal::Range) of the scale, [`Limit`](Refusal::Limit).
    pub fn scale(&mut self, scale: [f32; 3]) -> Result<Counts, Refusal> {
        Named(Field::scale, &scale).name_stray(answered(hosirekar_scale(
            self.stored()?,
            vec3(scale),
            self.vertices.as_flattened_mut(),
            self.normals.as_flattened(),
            self.uvs.as_flattened(),
            &self.indices,
        )))
    }

    /// Adds to each position.
    ///
    /// # Errors
    ///
    /// [`Shape`](Refusal::Shape), [`Range`](Refusal::Range) of the offset, [`Limit`](Refusal::Limit).
    pub fn offset(&mut self, offset: [f32; 3]) -> Result<Counts, Refusal> {
        Named(Field::offset, &offset).name_stray(answered(hosirekar_offset(
            self.stored()?,
            vec3(offset),
            self.vertices.as_flattened_mut(),
            self.normals.as_flattened(),
            self.uvs.as_flattened(),
            &self.indices,
        )))
    }

    /// Multiplies each uv.
    ///
    /// # Errors
    ///
    /// [`Shape`](Refusal::Shape), [`Range`](Refusal::Range) of the scale, [`Limit`](Refusal::Limit).
    pub fn uv_scale(&mut self, scale: [f32; 2]) -> Result<Counts, Refusal> {
        Named(Field::scale, &scale).name_stray(answered(hosirekar_texture_scale(
            self.stored()?,
            vec2(scale),
            self.vertices.as_flattened(),
            self.normals.as_flattened(),
            self.uvs.as_flattened_mut(),
            &self.indices,
        )))
    }

    /// The mesh with each position multiplied; [`scale`](Mesh::scale) keeps it where it is refused.
    ///
    /// # Errors
    ///
    /// Those of [`scale`](Mesh::scale).
    pub fn with_scale(mut self, scale: [f32; 3]) -> Result<Self, Refusal> {
        self.scale(scale).map(|_| self)
    }

    /// The mesh with each position moved; [`offset`](Mesh::offset) keeps it where it is refused.
    ///
    /// # Errors
    ///
    /// Those of [`offset`](Mesh::offset).
    pub fn with_offset(mut self, offset: [f32; 3]) -> Result<Self, Refusal> {
        self.offset(offset).map(|_| self)
    }

    /// The mesh with each uv multiplied; [`uv_scale`](Mesh::uv_scale) keeps it where it is refused.
    ///
    /// # Errors
    ///
    /// Those of [`uv_scale`](Mesh::uv_scale).
    pub fn with_uv_scale(mut self, scale: [f32; 2]) -> Result<Self, Refusal> {
        self.uv_scale(scale).map(|_| self)
    }

    /// The middle of the positions: their sum, divided by how many they are.
    ///
    /// # Errors
    ///
    /// [`Shape`](Refusal::Shape), [`Limit`](Refusal::Limit), [`Empty`](Refusal::Empty).
    pub fn centroid(&self) -> Result<[f32; 3], Refusal> {
        let answer = hosirekar_centroid(
            self.stored()?,
            self.vertices.as_flattened(),
            self.normals.as_flattened(),
            self.uvs.as_flattened(),
            &self.indices,
        );
        answered(answer.answer)?;
        let middle = answer.centroid;
        Ok([middle.x, middle.y, middle.z])
    }

    /// The middle of the uvs: their sum, divided by how many they are.
    ///
    /// # Errors
    ///
    /// [`Shape`](Refusal::Shape), [`Limit`](Refusal::Limit), [`Empty`](Refusal::Empty).
    pub fn uv_centroid(&self) -> Result<[f32; 2], Refusal> {
        let answer = hosirekar_uv_centroid(
            self.stored()?,
            self.vertices.as_flattened(),
            self.normals.as_flattened(),
            self.uvs.as_flattened(),
            &self.indices,
        );
        answered(answer.answer)?;
        let middle = answer.centroid;
        Ok([middle.x, middle.y])
    }

    fn resize(&mut self, counts: Counts) {
        self.vertices.resize(counts.vertices, [0.0; 3]);
        self.normals.resize(counts.vertices, [0.0; 3]);
        self.uvs.resize(counts.vertices, [0.0; 2]);
        self.indices.resize(counts.indices, 0);
    }

    fn lists(&self) -> Lists<'_> {
        Lists {
            vertices: &self.vertices,
            normals: &self.normals,
            uvs: &self.uvs,
            indices: &self.indices,
        }
    }

    fn stored(&self) -> Result<CCounts, Refusal> {
        self.counts().map(CCounts::from)
    }
}

/// Four lists of a mesh, to be read.
#[derive(Clone, Copy)]
struct Lists<'a> {
    vertices: &'a [[f32; 3]],
    normals: &'a [[f32; 3]],
    uvs: &'a [[f32; 2]],
    indices: &'a [u16],
}

/// Merges a mesh into the one of so many vertices and indices at the front of the buffers.
fn merge(from: Lists<'_>, to: &mut MeshBuffers<'_>, target: Counts) -> Result<Counts, Refusal> {
    let source = CCounts {
        vertices: from.vertices.len(),
        indices: from.indices.len(),
    };
    answered(hosirekar_merge(
        source,
        from.vertices.as_flattened(),
        from.normals.as_flattened(),
        from.uvs.as_flattened(),
        from.indices,
        target.into(),
        to.vertices.as_flattened_mut(),
        to.normals.as_flattened_mut(),
        to.uvs.as_flattened_mut(),
        to.indices,
    ))
}

impl<'a> MeshBuffers<'a> {
    /// Those of so many vertices and indices, and those of what follows.
    fn split(self, at: Counts) -> (MeshBuffers<'a>, MeshBuffers<'a>) {
        let (vertices, more_vertices) = self.vertices.split_at_mut(at.vertices);
        let (normals, more_normals) = self.normals.split_at_mut(at.vertices);
        let (uvs, more_uvs) = self.uvs.split_at_mut(at.vertices);
        let (indices, more_indices) = self.indices.split_at_mut(at.indices);
        let front = MeshBuffers {
            vertices,
            normals,
            uvs,
            indices,
        };
        let end = MeshBuffers {
            vertices: more_vertices,
            normals: more_normals,
            uvs: more_uvs,
            indices: more_indices,
        };
        (front, end)
    }

    fn lists(&self) -> Lists<'_> {
        Lists {
            vertices: self.vertices,
            normals: self.normals,
            uvs: self.uvs,
            indices: self.indices,
        }
    }
}

impl Counts {
    /// Those of two meshes together.
    fn and(self, more: Counts) -> Counts {
        Counts {
            vertices: self.vertices + more.vertices,
            indices: self.indices + more.indices,
        }
    }

    /// Refused where no plan has as many.
    fn lawful(self) -> Result<(), Refusal> {
        if self.vertices > MOST_VERTICES || self.indices > MOST_INDICES {
            return Err(Refusal::Limit);
        }
        Ok(())
    }
}

impl From<Counts> for CCounts {
    fn from(counts: Counts) -> Self {
        CCounts {
            vertices: counts.vertices,
            indices: counts.indices,
        }
    }
}
