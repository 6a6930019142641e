//! The safe functions over the declarations that take lists.
//!
//! Every `unsafe` block here has the same grounds. The function is proved for every input, so its
//! only demand is that each pointer with its length is a list: it comes from a slice that is
//! borrowed until the call is over, for writing where the function writes, and so overlaps no other.
#![allow(clippy::too_many_arguments)]
use crate::{raw, structs::*};

/// The counts of a plane, or why it is refused.
#[inline]
pub fn hosirekar_plane_plan(
    job: CPlane,
    corners: &[f32],
    numbers: &[f32],
    marks: &[u8],
) -> CAnswer {
    unsafe {
        raw::hosirekar_plane_plan(
            job,
            corners.as_ptr(),
            corners.len(),
            numbers.as_ptr(),
            numbers.len(),
            marks.as_ptr(),
            marks.len(),
        )
    }
}

/// How many faces a plane has, or why it is refused.
#[inline]
pub fn hosirekar_plane_faces(
    job: CPlane,
    corners: &[f32],
    numbers: &[f32],
    marks: &[u8],
) -> CFaces {
    unsafe {
        raw::hosirekar_plane_faces(
            job,
            corners.as_ptr(),
            corners.len(),
            numbers.as_ptr(),
            numbers.len(),
            marks.as_ptr(),
            marks.len(),
        )
    }
}

/// The places of one face of a plane, by its number.
#[inline]
pub fn hosirekar_plane_window(
    job: CPlane,
    corners: &[f32],
    numbers: &[f32],
    marks: &[u8],
    number: usize,
) -> CWindow {
    unsafe {
        raw::hosirekar_plane_window(
            job,
            corners.as_ptr(),
            corners.len(),
            numbers.as_ptr(),
            numbers.len(),
            marks.as_ptr(),
            marks.len(),
            number,
        )
    }
}

/// A whole plane, written to four buffers, or nothing.
#[inline]
pub fn hosirekar_plane_build(
    job: CPlane,
    corners: &[f32],
    numbers: &[f32],
    marks: &[u8],
    vertices: &mut [f32],
    normals: &mut [f32],
    uvs: &mut [f32],
    indices: &mut [u16],
) -> CAnswer {
    unsafe {
        raw::hosirekar_plane_build(
            job,
            corners.as_ptr(),
            corners.len(),
            numbers.as_ptr(),
            numbers.len(),
            marks.as_ptr(),
            marks.len(),
            vertices.as_mut_ptr(),
            vertices.len(),
            normals.as_mut_ptr(),
            normals.len(),
            uvs.as_mut_ptr(),
            uvs.len(),
            indices.as_mut_ptr(),
            indices.len(),
        )
    }
}

/// The face of a plane, which has one: that of number 0.
#[inline]
pub fn hosirekar_plane_face(
    job: CPlane,
    corners: &[f32],
    numbers: &[f32],
    marks: &[u8],
    number: usize,
    vertices: &mut [f32],
    normals: &mut [f32],
    uvs: &mut [f32],
    indices: &mut [u16],
) -> CAnswer {
    unsafe {
        raw::hosirekar_plane_face(
            job,
            corners.as_ptr(),
            corners.len(),
            numbers.as_ptr(),
            numbers.len(),
            marks.as_ptr(),
            marks.len(),
            number,
            vertices.as_mut_ptr(),
            vertices.len(),
            normals.as_mut_ptr(),
            normals.len(),
            uvs.as_mut_ptr(),
            uvs.len(),
            indices.as_mut_ptr(),
            indices.len(),
        )
    }
}

/// The counts of a column, or why it is refused.
#[inline]
pub fn hosirekar_column_plan(
    job: CColumn,
    pairs: &[f32],
    corners: &[f32],
    numbers: &[f32],
    marks: &[u8],
) -> CAnswer {
    unsafe {
        raw::hosirekar_column_plan(
            job,
            pairs.as_ptr(),
            pairs.len(),
            corners.as_ptr(),
            corners.len(),
            numbers.as_ptr(),
            numbers.len(),
            marks.as_ptr(),
            marks.len(),
        )
    }
}

/// How many faces a column has, or why it is refused.
#[inline]
pub fn hosirekar_column_faces(
    job: CColumn,
    pairs: &[f32],
    corners: &[f32],
    numbers: &[f32],
    marks: &[u8],
) -> CFaces {
    unsafe {
        raw::hosirekar_column_faces(
            job,
            pairs.as_ptr(),
            pairs.len(),
            corners.as_ptr(),
            corners.len(),
            numbers.as_ptr(),
            numbers.len(),
            marks.as_ptr(),
            marks.len(),
        )
    }
}

/// The places of one face of a column, by its number.
#[inline]
pub fn hosirekar_column_window(
    job: CColumn,
    pairs: &[f32],
    corners: &[f32],
    numbers: &[f32],
    marks: &[u8],
    number: usize,
) -> CWindow {
    unsafe {
        raw::hosirekar_column_window(
            job,
            pairs.as_ptr(),
            pairs.len(),
            corners.as_ptr(),
            corners.len(),
            numbers.as_ptr(),
            numbers.len(),
            marks.as_ptr(),
            marks.len(),
            number,
        )
    }
}

/// A whole column, written to four buffers, or nothing.
#[inline]
pub fn hosirekar_column_build(
    job: CColumn,
    pairs: &[f32],
    corners: &[f32],
    numbers: &[f32],
    marks: &[u8],
    vertices: &mut [f32],
    normals: &mut [f32],
    uvs: &mut [f32],
    indices: &mut [u16],
) -> CAnswer {
    unsafe {
        raw::hosirekar_column_build(
            job,
            pairs.as_ptr(),
            pairs.len(),
            corners.as_ptr(),
            corners.len(),
            numbers.as_ptr(),
            numbers.len(),
            marks.as_ptr(),
            marks.len(),
            vertices.as_mut_ptr(),
            vertices.len(),
            normals.as_mut_ptr(),
            normals.len(),
            uvs.as_mut_ptr(),
            uvs.len(),
            indices.as_mut_ptr(),
            indices.len(),
        )
    }
}

/// One face of a column: the sides' parts first, then the top, then the bottom.
#[inline]
pub fn hosirekar_column_face(
    job: CColumn,
    pairs: &[f32],
    corners: &[f32],
    numbers: &[f32],
    marks: &[u8],
    number: usize,
    vertices: &mut [f32],
    normals: &mut [f32],
    uvs: &mut [f32],
    indices: &mut [u16],
) -> CAnswer {
    unsafe {
        raw::hosirekar_column_face(
            job,
            pairs.as_ptr(),
            pairs.len(),
            corners.as_ptr(),
            corners.len(),
            numbers.as_ptr(),
            numbers.len(),
            marks.as_ptr(),
            marks.len(),
            number,
            vertices.as_mut_ptr(),
            vertices.len(),
            normals.as_mut_ptr(),
            normals.len(),
            uvs.as_mut_ptr(),
            uvs.len(),
            indices.as_mut_ptr(),
            indices.len(),
        )
    }
}

/// The cells of records in the two lists that the calls of a height map take, or nothing. What
/// those calls then take is the first 27 and 6 numbers a cell of each list. Both counts are 0.
#[inline]
pub fn hosirekar_heightmap_load(
    records: &[Cell],
    cells: &mut [f32],
    neighbours: &mut [u32],
) -> CAnswer {
    unsafe {
        raw::hosirekar_heightmap_load(
            records.as_ptr(),
            records.len(),
            cells.as_mut_ptr(),
            cells.len(),
            neighbours.as_mut_ptr(),
            neighbours.len(),
        )
    }
}

/// The counts of a height map, or why it is refused.
#[inline]
pub fn hosirekar_heightmap_plan(
    job: CHeightMap,
    cells: &[f32],
    neighbours: &[u32],
    fringe: &[f32],
    customs: &[u8],
    corners: &[f32],
    numbers: &[f32],
    marks: &[u8],
) -> CAnswer {
    unsafe {
        raw::hosirekar_heightmap_plan(
            job,
            cells.as_ptr(),
            cells.len(),
            neighbours.as_ptr(),
            neighbours.len(),
            fringe.as_ptr(),
            fringe.len(),
            customs.as_ptr(),
            customs.len(),
            corners.as_ptr(),
            corners.len(),
            numbers.as_ptr(),
            numbers.len(),
            marks.as_ptr(),
            marks.len(),
        )
    }
}

/// How many faces a height map has, or why it is refused.
#[inline]
pub fn hosirekar_heightmap_faces(
    job: CHeightMap,
    cells: &[f32],
    neighbours: &[u32],
    fringe: &[f32],
    customs: &[u8],
    corners: &[f32],
    numbers: &[f32],
    marks: &[u8],
) -> CFaces {
    unsafe {
        raw::hosirekar_heightmap_faces(
            job,
            cells.as_ptr(),
            cells.len(),
            neighbours.as_ptr(),
            neighbours.len(),
            fringe.as_ptr(),
            fringe.len(),
            customs.as_ptr(),
            customs.len(),
            corners.as_ptr(),
            corners.len(),
            numbers.as_ptr(),
            numbers.len(),
            marks.as_ptr(),
            marks.len(),
        )
    }
}

/// The places of one face of a height map, by its number.
#[inline]
pub fn hosirekar_heightmap_window(
    job: CHeightMap,
    cells: &[f32],
    neighbours: &[u32],
    fringe: &[f32],
    customs: &[u8],
    corners: &[f32],
    numbers: &[f32],
    marks: &[u8],
    number: usize,
) -> CWindow {
    unsafe {
        raw::hosirekar_heightmap_window(
            job,
            cells.as_ptr(),
            cells.len(),
            neighbours.as_ptr(),
            neighbours.len(),
            fringe.as_ptr(),
            fringe.len(),
            customs.as_ptr(),
            customs.len(),
            corners.as_ptr(),
            corners.len(),
            numbers.as_ptr(),
            numbers.len(),
            marks.as_ptr(),
            marks.len(),
            number,
        )
    }
}

/// Why a side of a cell of a height map is there or missing, with its face's number if it is there.
#[inline]
pub fn hosirekar_heightmap_why(
    job: CHeightMap,
    cells: &[f32],
    neighbours: &[u32],
    fringe: &[f32],
    customs: &[u8],
    corners: &[f32],
    numbers: &[f32],
    marks: &[u8],
    cell: usize,
    side: usize,
) -> CWhy {
    unsafe {
        raw::hosirekar_heightmap_why(
            job,
            cells.as_ptr(),
            cells.len(),
            neighbours.as_ptr(),
            neighbours.len(),
            fringe.as_ptr(),
            fringe.len(),
            customs.as_ptr(),
            customs.len(),
            corners.as_ptr(),
            corners.len(),
            numbers.as_ptr(),
            numbers.len(),
            marks.as_ptr(),
            marks.len(),
            cell,
            side,
        )
    }
}

/// Which cap or side of a height map the face of a number is.
#[inline]
pub fn hosirekar_heightmap_which(
    job: CHeightMap,
    cells: &[f32],
    neighbours: &[u32],
    fringe: &[f32],
    customs: &[u8],
    corners: &[f32],
    numbers: &[f32],
    marks: &[u8],
    number: usize,
) -> CWhich {
    unsafe {
        raw::hosirekar_heightmap_which(
            job,
            cells.as_ptr(),
            cells.len(),
            neighbours.as_ptr(),
            neighbours.len(),
            fringe.as_ptr(),
            fringe.len(),
            customs.as_ptr(),
            customs.len(),
            corners.as_ptr(),
            corners.len(),
            numbers.as_ptr(),
            numbers.len(),
            marks.as_ptr(),
            marks.len(),
            number,
        )
    }
}

/// A whole height map, written to four buffers, or nothing.
#[inline]
pub fn hosirekar_heightmap_build(
    job: CHeightMap,
    cells: &[f32],
    neighbours: &[u32],
    fringe: &[f32],
    customs: &[u8],
    corners: &[f32],
    numbers: &[f32],
    marks: &[u8],
    vertices: &mut [f32],
    normals: &mut [f32],
    uvs: &mut [f32],
    indices: &mut [u16],
) -> CAnswer {
    unsafe {
        raw::hosirekar_heightmap_build(
            job,
            cells.as_ptr(),
            cells.len(),
            neighbours.as_ptr(),
            neighbours.len(),
            fringe.as_ptr(),
            fringe.len(),
            customs.as_ptr(),
            customs.len(),
            corners.as_ptr(),
            corners.len(),
            numbers.as_ptr(),
            numbers.len(),
            marks.as_ptr(),
            marks.len(),
            vertices.as_mut_ptr(),
            vertices.len(),
            normals.as_mut_ptr(),
            normals.len(),
            uvs.as_mut_ptr(),
            uvs.len(),
            indices.as_mut_ptr(),
            indices.len(),
        )
    }
}

/// One face of a height map: of each cell the cap, then the sides that stand.
#[inline]
pub fn hosirekar_heightmap_face(
    job: CHeightMap,
    cells: &[f32],
    neighbours: &[u32],
    fringe: &[f32],
    customs: &[u8],
    corners: &[f32],
    numbers: &[f32],
    marks: &[u8],
    number: usize,
    vertices: &mut [f32],
    normals: &mut [f32],
    uvs: &mut [f32],
    indices: &mut [u16],
) -> CAnswer {
    unsafe {
        raw::hosirekar_heightmap_face(
            job,
            cells.as_ptr(),
            cells.len(),
            neighbours.as_ptr(),
            neighbours.len(),
            fringe.as_ptr(),
            fringe.len(),
            customs.as_ptr(),
            customs.len(),
            corners.as_ptr(),
            corners.len(),
            numbers.as_ptr(),
            numbers.len(),
            marks.as_ptr(),
            marks.len(),
            number,
            vertices.as_mut_ptr(),
            vertices.len(),
            normals.as_mut_ptr(),
            normals.len(),
            uvs.as_mut_ptr(),
            uvs.len(),
            indices.as_mut_ptr(),
            indices.len(),
        )
    }
}

/// The counts of a cheap column, or why it is refused.
#[inline]
pub fn hosirekar_cheap_column_plan(job: CCheapColumn, corners: &[f32]) -> CAnswer {
    unsafe { raw::hosirekar_cheap_column_plan(job, corners.as_ptr(), corners.len()) }
}

/// How many faces a cheap column has, or why it is refused.
#[inline]
pub fn hosirekar_cheap_column_faces(job: CCheapColumn, corners: &[f32]) -> CFaces {
    unsafe { raw::hosirekar_cheap_column_faces(job, corners.as_ptr(), corners.len()) }
}

/// The places of one face of a cheap column, by its number.
#[inline]
pub fn hosirekar_cheap_column_window(job: CCheapColumn, corners: &[f32], number: usize) -> CWindow {
    unsafe { raw::hosirekar_cheap_column_window(job, corners.as_ptr(), corners.len(), number) }
}

/// A whole cheap column, written to four buffers, or nothing.
#[inline]
pub fn hosirekar_cheap_column_build(
    job: CCheapColumn,
    corners: &[f32],
    vertices: &mut [f32],
    normals: &mut [f32],
    uvs: &mut [f32],
    indices: &mut [u16],
) -> CAnswer {
    unsafe {
        raw::hosirekar_cheap_column_build(
            job,
            corners.as_ptr(),
            corners.len(),
            vertices.as_mut_ptr(),
            vertices.len(),
            normals.as_mut_ptr(),
            normals.len(),
            uvs.as_mut_ptr(),
            uvs.len(),
            indices.as_mut_ptr(),
            indices.len(),
        )
    }
}

/// The face of a cheap column, which has one: that of number 0.
#[inline]
pub fn hosirekar_cheap_column_face(
    job: CCheapColumn,
    corners: &[f32],
    number: usize,
    vertices: &mut [f32],
    normals: &mut [f32],
    uvs: &mut [f32],
    indices: &mut [u16],
) -> CAnswer {
    unsafe {
        raw::hosirekar_cheap_column_face(
            job,
            corners.as_ptr(),
            corners.len(),
            number,
            vertices.as_mut_ptr(),
            vertices.len(),
            normals.as_mut_ptr(),
            normals.len(),
            uvs.as_mut_ptr(),
            uvs.len(),
            indices.as_mut_ptr(),
            indices.len(),
        )
    }
}

/// Appends a source mesh to a target, or writes nothing.
#[inline]
pub fn hosirekar_merge(
    source: CCounts,
    svertices: &[f32],
    snormals: &[f32],
    suvs: &[f32],
    sindices: &[u16],
    target: CCounts,
    vertices: &mut [f32],
    normals: &mut [f32],
    uvs: &mut [f32],
    indices: &mut [u16],
) -> CAnswer {
    unsafe {
        raw::hosirekar_merge(
            source,
            svertices.as_ptr(),
            svertices.len(),
            snormals.as_ptr(),
            snormals.len(),
            suvs.as_ptr(),
            suvs.len(),
            sindices.as_ptr(),
            sindices.len(),
            target,
            vertices.as_mut_ptr(),
            vertices.len(),
            normals.as_mut_ptr(),
            normals.len(),
            uvs.as_mut_ptr(),
            uvs.len(),
            indices.as_mut_ptr(),
            indices.len(),
        )
    }
}

/// Multiplies each position, component by component, or writes nothing.
#[inline]
pub fn hosirekar_scale(
    counts: CCounts,
    by: CVec3,
    vertices: &mut [f32],
    normals: &[f32],
    uvs: &[f32],
    indices: &[u16],
) -> CAnswer {
    unsafe {
        raw::hosirekar_scale(
            counts,
            by,
            vertices.as_mut_ptr(),
            vertices.len(),
            normals.as_ptr(),
            normals.len(),
            uvs.as_ptr(),
            uvs.len(),
            indices.as_ptr(),
            indices.len(),
        )
    }
}

/// Adds to each position, or writes nothing.
#[inline]
pub fn hosirekar_offset(
    counts: CCounts,
    by: CVec3,
    vertices: &mut [f32],
    normals: &[f32],
    uvs: &[f32],
    indices: &[u16],
) -> CAnswer {
    unsafe {
        raw::hosirekar_offset(
            counts,
            by,
            vertices.as_mut_ptr(),
            vertices.len(),
            normals.as_ptr(),
            normals.len(),
            uvs.as_ptr(),
            uvs.len(),
            indices.as_ptr(),
            indices.len(),
        )
    }
}

/// Multiplies each uv, component by component, or writes nothing.
#[inline]
pub fn hosirekar_texture_scale(
    counts: CCounts,
    by: CVec2,
    vertices: &[f32],
    normals: &[f32],
    uvs: &mut [f32],
    indices: &[u16],
) -> CAnswer {
    unsafe {
        raw::hosirekar_texture_scale(
            counts,
            by,
            vertices.as_ptr(),
            vertices.len(),
            normals.as_ptr(),
            normals.len(),
            uvs.as_mut_ptr(),
            uvs.len(),
            indices.as_ptr(),
            indices.len(),
        )
    }
}

/// The middle of the positions.
#[inline]
pub fn hosirekar_centroid(
    counts: CCounts,
    vertices: &[f32],
    normals: &[f32],
    uvs: &[f32],
    indices: &[u16],
) -> CCentroid {
    unsafe {
        raw::hosirekar_centroid(
            counts,
            vertices.as_ptr(),
            vertices.len(),
            normals.as_ptr(),
            normals.len(),
            uvs.as_ptr(),
            uvs.len(),
            indices.as_ptr(),
            indices.len(),
        )
    }
}

/// The middle of the uvs.
#[inline]
pub fn hosirekar_uv_centroid(
    counts: CCounts,
    vertices: &[f32],
    normals: &[f32],
    uvs: &[f32],
    indices: &[u16],
) -> CUvCentroid {
    unsafe {
        raw::hosirekar_uv_centroid(
            counts,
            vertices.as_ptr(),
            vertices.len(),
            normals.as_ptr(),
            normals.len(),
            uvs.as_ptr(),
            uvs.len(),
            indices.as_ptr(),
            indices.len(),
        )
    }
}

/// The binary STL file of a stored mesh, or nothing. Bytes past it stay as they were.
#[inline]
pub fn hosirekar_stl_write(
    counts: CCounts,
    vertices: &[f32],
    normals: &[f32],
    uvs: &[f32],
    indices: &[u16],
    bytes: &mut [u8],
) -> CFile {
    unsafe {
        raw::hosirekar_stl_write(
            counts,
            vertices.as_ptr(),
            vertices.len(),
            normals.as_ptr(),
            normals.len(),
            uvs.as_ptr(),
            uvs.len(),
            indices.as_ptr(),
            indices.len(),
            bytes.as_mut_ptr(),
            bytes.len(),
        )
    }
}

/// The mesh of a binary STL file, three vertices of its own for each triangle, or nothing.
#[inline]
pub fn hosirekar_stl_read(
    bytes: &[u8],
    vertices: &mut [f32],
    normals: &mut [f32],
    uvs: &mut [f32],
    indices: &mut [u16],
) -> CAnswer {
    unsafe {
        raw::hosirekar_stl_read(
            bytes.as_ptr(),
            bytes.len(),
            vertices.as_mut_ptr(),
            vertices.len(),
            normals.as_mut_ptr(),
            normals.len(),
            uvs.as_mut_ptr(),
            uvs.len(),
            indices.as_mut_ptr(),
            indices.len(),
        )
    }
}
