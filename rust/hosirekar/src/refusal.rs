//! Why a call is refused.

use crate::{Counts, OutOfRange, Window};
use hosirekar_sys::{CAnswer, CFaces, CWindow};
use std::fmt;

/// One of the four buffers that a mesh is written to. Their order is that in which they are tested for
/// room.
#[derive(Clone, Copy, Debug, PartialEq, Eq, PartialOrd, Ord, Hash)]
pub enum Buffer {
    /// Three numbers a vertex.
    Vertices,
    /// Three numbers a vertex.
    Normals,
    /// Two numbers a vertex.
    Uvs,
    /// One number an index.
    Indices,
}

impl Buffer {
    /// All of them, in their order.
    pub const ALL: [Buffer; 4] = [
        Buffer::Vertices,
        Buffer::Normals,
        Buffer::Uvs,
        Buffer::Indices,
    ];

    /// How many numbers an entry of it has: 3, 3, 2 or 1.
    #[must_use]
    pub const fn width(self) -> usize {
        match self {
            Buffer::Vertices | Buffer::Normals => 3,
            Buffer::Uvs => 2,
            Buffer::Indices => 1,
        }
    }
}

impl fmt::Display for Buffer {
    fn fmt(&self, f: &mut fmt::Formatter<'_>) -> fmt::Result {
        f.pad(match self {
            Buffer::Vertices => "vertices",
            Buffer::Normals => "normals",
            Buffer::Uvs => "uvs",
            Buffer::Indices => "indices",
        })
    }
}

/// Why a call was refused. It then wrote nothing.
///
/// ```
/// use hosirekar::{Mesh, Refusal};
///
/// let why = Mesh::default().centroid().unwrap_err();
/// assert_eq!((why, why.number()), (Refusal::Empty, 8));
/// assert_eq!(why.to_string(), "the mesh has no vertices and so no centroid: build or merge into it first");
/// ```
#[derive(Clone, Copy, Debug, PartialEq, Eq, Hash)]
pub enum Refusal {
    /// A list has the wrong length: a mesh has not one normal and one uv for each vertex, or a height
    /// map not one entry a cell, more than 65,536 cells, or more than 64 different options.
    Shape,
    /// A number is not finite, or above 1,000,000 either way: the first of the job, or of the argument
    /// of a call on a mesh.
    Range(OutOfRange),
    /// A neighbour is neither a cell nor none.
    Neighbour,
    /// There would be more than 65,536 vertices, or more indices than so many have in any plan. A file of
    /// more than 21,845 triangles would have them.
    Limit,
    /// A lent buffer is shorter than the whole mesh needs.
    ///
    /// ```
    /// use hosirekar::{Buffer, Column, Counts, Job, Mesh, Refusal};
    ///
    /// // A column of 36 vertices.
    /// let column = Column::default();
    /// let mut mesh = Mesh::zeroed(Counts { vertices: 36, indices: 60 })?;
    /// mesh.uvs.truncate(30);
    /// let why = column.build_into(&mut mesh.buffers()).unwrap_err();
    /// assert_eq!(
    ///     why.to_string(),
    ///     "the uvs buffer is too short: lengthen it to at least 72 numbers, two a vertex",
    /// );
    /// let Refusal::Room { buffer: Buffer::Uvs, need } = why else { unreachable!() };
    /// mesh.uvs.resize(need / Buffer::Uvs.width(), [0.0; 2]);
    /// assert!(column.build_into(&mut mesh.buffers()).is_ok());
    /// # Ok::<(), Refusal>(())
    /// ```
    Room {
        /// The first that is too short.
        buffer: Buffer,
        /// How many numbers the whole mesh needs in it: its whole length, not what is missing. Divided by
        /// [`Buffer::width`] it is the length of a list of [`MeshBuffers`](crate::MeshBuffers). It is 0
        /// where it is not known.
        need: usize,
    },
    /// What is asked for by its number is not there: the job has no such face, the map no such cell, or the
    /// cell no such side.
    NoFace,
    /// A mesh to be merged or written to a file has an index that is none of its vertices.
    Index,
    /// There is no centroid of no vertices.
    Empty,
    /// The indices of a mesh to be written to a file are not three for each triangle, or the triangles are
    /// more than 32 bits count.
    Triangles,
    /// The bytes to be read are no binary STL file: they are fewer than 84, or not 84 and 50 for each
    /// triangle that they count.
    File,
    /// The bytes that are lent for a file are too few. [`Mesh::to_stl`](crate::Mesh::to_stl) lends as many
    /// as it takes, so no call of this crate is refused so.
    Bytes {
        /// How many bytes the file has. It is 0 where it is not known.
        need: usize,
    },
}

impl Refusal {
    /// All of them, by their numbers. Of the [`Range`](Refusal::Range) no place is known, and of the
    /// [`Room`](Refusal::Room) and the [`Bytes`](Refusal::Bytes) no need.
    pub const ALL: [Refusal; 14] = [
        Refusal::Shape,
        Refusal::Range(OutOfRange::UNKNOWN),
        Refusal::Neighbour,
        Refusal::Limit,
        Refusal::NoFace,
        Refusal::Index,
        Refusal::Empty,
        Refusal::Triangles,
        Refusal::File,
        Refusal::short(Buffer::Vertices),
        Refusal::short(Buffer::Normals),
        Refusal::short(Buffer::Uvs),
        Refusal::short(Buffer::Indices),
        Refusal::Bytes { need: 0 },
    ];

    /// Room in a buffer of which no need is known.
    const fn short(buffer: Buffer) -> Refusal {
        Refusal::Room { buffer, need: 0 }
    }

    /// Its number: 1 to 4, 6 to 8, 10, 11, and 51 to 55 where a buffer is too short.
    #[must_use]
    pub const fn number(self) -> u32 {
        match self {
            Refusal::Shape => 1,
            Refusal::Range(_) => 2,
            Refusal::Neighbour => 3,
            Refusal::Limit => 4,
            Refusal::Room { buffer, .. } => match buffer {
                Buffer::Vertices => 51,
                Buffer::Normals => 52,
                Buffer::Uvs => 53,
                Buffer::Indices => 54,
            },
            Refusal::NoFace => 6,
            Refusal::Index => 7,
            Refusal::Empty => 8,
            Refusal::Triangles => 10,
            Refusal::File => 11,
            Refusal::Bytes { .. } => 55,
        }
    }

    /// The refusal of that number. Of the [`Range`](Refusal::Range) no place is known, and of the
    /// [`Room`](Refusal::Room) and the [`Bytes`](Refusal::Bytes) no need, so these do not equal what a call
    /// answers.
    #[must_use]
    pub const fn from_number(number: u32) -> Option<Refusal> {
        let mut k = 0;
        while k < Refusal::ALL.len() {
            if Refusal::ALL[k].number() == number {
                return Some(Refusal::ALL[k]);
            }
            k += 1;
        }
        None
    }

    /// The same with the need that a call tells.
    fn with_need(self, need: usize) -> Refusal {
        match self {
            Refusal::Room { buffer, .. } => Refusal::Room { buffer, need },
            Refusal::Bytes { .. } => Refusal::Bytes { need },
            other => other,
        }
    }
}

impl fmt::Display for Refusal {
    fn fmt(&self, f: &mut fmt::Formatter<'_>) -> fmt::Result {
        f.write_str(match self {
            Refusal::Shape => {
                "lists do not fit together: give each vertex of a mesh one normal and one uv, and a map at most 65,536 cells, an entry for each of them, and 64 options"
            }
            Refusal::Range(stray) => return stray.fmt(f),
            Refusal::Neighbour => "a neighbour does not exist: name a cell of the map, or none",
            Refusal::Limit => {
                "more than 65,536 vertices, or the indices of more: ask for fewer faces, parts or insets, or for several meshes; of a file read at most 21,845 triangles"
            }
            Refusal::Room { buffer, need } => return write_room(f, *buffer, *need),
            Refusal::NoFace => {
                "there is no face, cell or side of that number: count each from 0, and a cell's sides to 5"
            }
            Refusal::Index => {
                "an index of the mesh to be merged or written names no vertex: keep indices below its vertex count"
            }
            Refusal::Empty => {
                "the mesh has no vertices and so no centroid: build or merge into it first"
            }
            Refusal::Triangles => {
                "the indices are no whole triangles: give three for each, and no more triangles than 32 bits count"
            }
            Refusal::File => {
                "the bytes are no binary STL file: give a whole one, 84 bytes and 50 for each triangle that it counts"
            }
            Refusal::Bytes { need } => return write_bytes(f, *need),
        })
    }
}

/// Which buffer is to be lengthened, and to what.
fn write_room(f: &mut fmt::Formatter<'_>, buffer: Buffer, need: usize) -> fmt::Result {
    let each = match buffer {
        Buffer::Vertices | Buffer::Normals => "three a vertex",
        Buffer::Uvs => "two a vertex",
        Buffer::Indices => "one an index",
    };
    write!(f, "the {buffer} buffer is too short: lengthen it to ")?;
    match need {
        0 => write!(f, "all numbers of the whole mesh, {each}"),
        _ => write!(f, "at least {need} numbers, {each}"),
    }
}

/// To what the bytes are to be lengthened.
fn write_bytes(f: &mut fmt::Formatter<'_>, need: usize) -> fmt::Result {
    f.write_str("the byte buffer is too short: lengthen it to ")?;
    match need {
        0 => f.write_str("all bytes of the whole file"),
        _ => write!(f, "at least {need} bytes"),
    }
}

impl std::error::Error for Refusal {}

/// The counts, or the refusal, that a call answered. Which number is out of range is not known here:
/// `Tested::name_stray` says it.
pub(crate) fn answered(answer: CAnswer) -> Result<Counts, Refusal> {
    if answer.number == 0 {
        return Ok(Counts {
            vertices: answer.vertices,
            indices: answer.indices,
        });
    }
    // The archive's promises give no other number.
    let why = Refusal::from_number(answer.number).expect("an answer's number is that of a refusal");
    Err(why.with_need(answer.need))
}

/// How many faces there are, or the refusal.
pub(crate) fn faces_told(told: CFaces) -> Result<usize, Refusal> {
    answered(told.answer).map(|_| told.faces)
}

/// The places of a face, or the refusal.
pub(crate) fn window_told(told: CWindow) -> Result<Window, Refusal> {
    answered(told.answer).map(|_| Window {
        vertices: told.first_vertex..told.first_vertex + told.vertices,
        indices: told.first_index..told.first_index + told.indices,
    })
}
