//! Meshes of hexagon planes, columns and height maps, in the manner of hexx, over functions that are
//! proved.
//!
//! A job says what is wanted: a [`Plane`], a [`Column`], a [`CheapColumn`] or a [`HeightMap`]. All
//! that it can be asked stands in the trait [`Job`]: [`plan`](Job::plan) counts without a mesh,
//! [`build`](Job::build) makes one, [`build_into`](Job::build_into) writes it to buffers that you
//! lend, and [`build_face`](Job::build_face) writes one face of it, to the places that
//! [`window`](Job::window) tells.
//!
//! ```
//! use hosirekar::{layout::Layout, Counts, FaceOptions, Fringe, HeightMap, InsetOptions, Job};
//!
//! let heights = [((0, 0), 4.0), ((1, 0), 3.0), ((0, 1), 2.0), ((-1, 1), 2.0)];
//! let mut map = HeightMap::from_heights(&Layout::pointy(), heights)?;
//! // Walls down to 0 about the panel, and a rim on each cap.
//! map.fringe = Fringe::Heights(vec![[0.0; 6]; map.cells.len()]);
//! let rim = InsetOptions { scale: 0.2, keep_inner_face: true, ..Default::default() };
//! map.caps = Some(FaceOptions { insetting: Some(rim), ..Default::default() });
//! assert_eq!(map.plan()?, Counts { vertices: 120, indices: 300 });
//! let mesh = map.build()?;
//! assert_eq!(mesh.vertices[0][1], 4.0);
//! # Ok::<(), Box<dyn std::error::Error>>(())
//! ```
//!
//! A column is handed its corners, and meshes are merged:
//!
//! ```
//! use hosirekar::{Column, Job, Refusal};
//!
//! // Corners about the middle of the hexagon, x and z.
//! let corners = [[2.0, 0.0], [1.0, 2.0], [-1.0, 2.0], [-2.0, 0.0], [-1.0, -2.0], [1.0, -2.0]];
//! let column = Column { bottom: None, position: [10.0, 0.0], ..Column::new(corners, 3.0) };
//! let mut mesh = column.build()?;
//! mesh.add(&Column { position: [0.0, 0.0], ..column })?;
//! assert_eq!(mesh.centroid()?, [5.0, 1.8, 0.0]);
//! # Ok::<(), Refusal>(())
//! ```
//!
//! # Files
//!
//! [`Mesh::to_stl`] makes a binary STL file of a mesh, [`Mesh::write_stl`] writes it to anything that
//! takes bytes, and [`Mesh::from_stl`] makes a mesh of one again, with three vertices for each triangle.
//!
//! ```
//! use hosirekar::{Column, Job, Mesh};
//!
//! let mesh = Column::default().build()?;
//! let mut file = Vec::new();
//! mesh.write_stl(&mut file)?;
//! assert_eq!(Mesh::from_stl(&file)?.vertices.len(), mesh.indices.len());
//! # Ok::<(), Box<dyn std::error::Error>>(())
//! ```
//!
//! # Missing walls
//!
//! [`HeightMap::why`] tells why a side of a cell has no wall, or the number of its face if it has one, and
//! [`HeightMap::which`] which cap or side is behind a number. Both answers print in an operator's words.
//!
//! ```
//! use hosirekar::{layout::Layout, Fringe, HeightMap};
//!
//! let mut map = HeightMap::from_heights(&Layout::flat(), [((0, 0), 2.0), ((1, 0), 1.0)])?;
//! map.fringe = Fringe::None;
//! assert_eq!(map.why(0, 0)?.to_string(), "the wall is there: face 1");
//! assert_eq!(map.which(1)?.to_string(), "side 0 of cell 0");
//! assert_eq!(map.why(1, 3)?.to_string(), "the neighbour is as high: 2.0");
//! assert_eq!(map.why(1, 0)?.to_string(), "there is no neighbour and no fringe height");
//! # Ok::<(), Box<dyn std::error::Error>>(())
//! ```
//!
//! # Refusals
//!
//! No call panics and none half succeeds. A call that is refused says why with a [`Refusal`] and
//! leaves everything as it was, but for a mesh that it took by value
//! ([`with_scale`](Mesh::with_scale) and its like), which is dropped. Every number of a job must be
//! finite and at most 1,000,000 either way, and a mesh has at most 65,536 vertices.
//!
//! ```
//! use hosirekar::{Column, Job, Refusal};
//!
//! let tall = Column { subdivisions: Some(2_731), ..Column::default() };
//! assert_eq!(tall.build(), Err(Refusal::Limit));
//! ```
//!
//! The refusal for a number out of range names its field and entry:
//!
//! ```
//! use hosirekar::{Job, Plane};
//!
//! let mut plane = Plane::default();
//! plane.corners[5][1] = -2e6;
//! assert_eq!(
//!     plane.build().unwrap_err().to_string(),
//!     "corners[5][1] is -2000000: make it finite and at most 1,000,000 either way",
//! );
//! ```
//!
//! The refusal for room names the first buffer that is too short, and what the whole mesh needs in it:
//!
//! ```
//! use hosirekar::{Buffer, Column, Job, Mesh, Refusal};
//!
//! let why = Column::default().build_into(&mut Mesh::default().buffers()).unwrap_err();
//! assert_eq!(why, Refusal::Room { buffer: Buffer::Vertices, need: 108 });
//! assert_eq!(
//!     why.to_string(),
//!     "the vertices buffer is too short: lengthen it to at least 108 numbers, three a vertex",
//! );
//! ```
//!
//! # Axes
//!
//! They are right-handed with y up. A job is scaled, then turned, then moved; position, offset and origin
//! are added after the turn and are not turned themselves. For a machine with z up, the rotation
//! `[[1.0, 0.0, 0.0], [0.0, 0.0, -1.0], [0.0, 1.0, 0.0]]` takes (x, y, z) to (x, -z, y). The second number
//! of a position or an origin is then added to the height: leave it 0, and give an offset.
//!
//! # Corners
//!
//! A job is handed its corners, each an x and a z. Planes and columns take the corners about the middle
//! of the hexagon, centre-aligned, and their position apart. The cheap column takes the hexagon's own
//! corners, where it stands. The cells of a height map have the ends of their sides where they stand
//! before the origin is added. The module [`layout`] has all of these for flat and pointy hexagons.
//!
//! A user of hexx has them from a `HexLayout` too, a point `p` as `[p.x, p.y]`, and the rest from what
//! the builder was given ([`HeightMap`] has a table of its own):
//!
//! | here | in hexx |
//! |---|---|
//! | [`Plane::corners`], [`Column::cap_corners`], [`HeightMap::cap_corners`] | `layout.center_aligned_hex_corners()` |
//! | [`Column::side_ends`] | `layout.hex_edge_corners(Hex::ZERO)`, of a layout with its origin at zero |
//! | [`Cell::side_ends`], [`Cell::position`] | `layout.hex_edge_corners(hex)`, `layout.hex_to_world_pos(hex)`, of a layout with its origin at zero |
//! | [`Plane::position`], [`Column::position`] | `layout.hex_to_world_pos(pos)`; after `center_aligned()`, of a layout with its origin at zero |
//! | [`CheapColumn::corners`], [`CheapColumn::centre`] | `layout.hex_corners(hex)`, `layout.hex_to_world_pos(hex)` |
//! | [`Plane::options`] | `face_options` |
//! | [`Column::sides`], [`Column::top`], [`Column::bottom`] | `sides_options`, and the `face_options` of `top_face` and `bottom_face` |
//! | [`Plane::rotation`], [`Column::rotation`], [`HeightMap::rotation`] | `Mat3::from_quat(rotation).transpose().to_cols_array_2d()` |
#![forbid(unsafe_code)]

mod cheap_column;
mod column;
mod heightmap;
mod job;
pub mod layout;
mod mesh;
mod options;
mod placement;
mod plane;
mod range;
mod refusal;
mod stl;
mod why;

pub use cheap_column::CheapColumn;
pub use column::Column;
pub use heightmap::{Cell, CellOptions, Fringe, HeightMap, ReadyHeightMap};
pub use job::Job;
pub use mesh::{Counts, Mesh, MeshBuffers, Window};
pub use options::{FaceOptions, InsetOptions, InsetScaleMode, Rect, UVOptions};
pub use plane::Plane;
pub use range::OutOfRange;
pub use refusal::{Buffer, Refusal};
pub use why::{Beyond, Face, Reason, Which, Why};
