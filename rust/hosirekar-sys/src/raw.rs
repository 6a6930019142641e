//! The declarations. Those without lists are safe as they are: they touch no memory of the caller's.
use crate::structs::*;

unsafe extern "C" {
    /// The square root of `x`, correctly rounded.
    pub safe fn hosirekar_root(x: f32) -> f32;

    /// `a` × `b` + `c`, rounded once.
    pub safe fn hosirekar_fused(a: f32, b: f32, c: f32) -> f32;

    /// One uv, flipped, scaled, moved and laid into the rectangle.
    pub safe fn hosirekar_alter_uv(options: CUvOptions, uv: CVec2) -> CVec2;

    /// The uv of a point: its direction, halved, about the middle of the texture.
    pub safe fn hosirekar_wrap_uv(point: CVec2) -> CVec2;

    pub fn hosirekar_plane_plan(
        job: CPlane,
        corners: *const f32,
        corners_len: usize,
        numbers: *const f32,
        numbers_len: usize,
        marks: *const u8,
        marks_len: usize,
    ) -> CAnswer;

    pub fn hosirekar_plane_faces(
        job: CPlane,
        corners: *const f32,
        corners_len: usize,
        numbers: *const f32,
        numbers_len: usize,
        marks: *const u8,
        marks_len: usize,
    ) -> CFaces;

    pub fn hosirekar_plane_window(
        job: CPlane,
        corners: *const f32,
        corners_len: usize,
        numbers: *const f32,
        numbers_len: usize,
        marks: *const u8,
        marks_len: usize,
        number: usize,
    ) -> CWindow;

    pub fn hosirekar_plane_build(
        job: CPlane,
        corners: *const f32,
        corners_len: usize,
        numbers: *const f32,
        numbers_len: usize,
        marks: *const u8,
        marks_len: usize,
        vertices: *mut f32,
        vertices_len: usize,
        normals: *mut f32,
        normals_len: usize,
        uvs: *mut f32,
        uvs_len: usize,
        indices: *mut u16,
        indices_len: usize,
    ) -> CAnswer;

    pub fn hosirekar_plane_face(
        job: CPlane,
        corners: *const f32,
        corners_len: usize,
        numbers: *const f32,
        numbers_len: usize,
        marks: *const u8,
        marks_len: usize,
        number: usize,
        vertices: *mut f32,
        vertices_len: usize,
        normals: *mut f32,
        normals_len: usize,
        uvs: *mut f32,
        uvs_len: usize,
        indices: *mut u16,
        indices_len: usize,
    ) -> CAnswer;

    pub fn hosirekar_column_plan(
        job: CColumn,
        pairs: *const f32,
        pairs_len: usize,
        corners: *const f32,
        corners_len: usize,
        numbers: *const f32,
        numbers_len: usize,
        marks: *const u8,
        marks_len: usize,
    ) -> CAnswer;

    pub fn hosirekar_column_faces(
        job: CColumn,
        pairs: *const f32,
        pairs_len: usize,
        corners: *const f32,
        corners_len: usize,
        numbers: *const f32,
        numbers_len: usize,
        marks: *const u8,
        marks_len: usize,
    ) -> CFaces;

    pub fn hosirekar_column_window(
        job: CColumn,
        pairs: *const f32,
        pairs_len: usize,
        corners: *const f32,
        corners_len: usize,
        numbers: *const f32,
        numbers_len: usize,
        marks: *const u8,
        marks_len: usize,
        number: usize,
    ) -> CWindow;

    pub fn hosirekar_column_build(
        job: CColumn,
        pairs: *const f32,
        pairs_len: usize,
        corners: *const f32,
        corners_len: usize,
        numbers: *const f32,
        numbers_len: usize,
        marks: *const u8,
        marks_len: usize,
        vertices: *mut f32,
        vertices_len: usize,
        normals: *mut f32,
        normals_len: usize,
        uvs: *mut f32,
        uvs_len: usize,
        indices: *mut u16,
        indices_len: usize,
    ) -> CAnswer;

    pub fn hosirekar_column_face(
        job: CColumn,
        pairs: *const f32,
        pairs_len: usize,
        corners: *const f32,
        corners_len: usize,
        numbers: *const f32,
        numbers_len: usize,
        marks: *const u8,
        marks_len: usize,
        number: usize,
        vertices: *mut f32,
        vertices_len: usize,
        normals: *mut f32,
        normals_len: usize,
        uvs: *mut f32,
        uvs_len: usize,
        indices: *mut u16,
        indices_len: usize,
    ) -> CAnswer;

    pub fn hosirekar_heightmap_load(
        records: *const Cell,
        records_len: usize,
        cells: *mut f32,
        cells_len: usize,
        neighbours: *mut u32,
        neighbours_len: usize,
    ) -> CAnswer;

    pub fn hosirekar_heightmap_plan(
        job: CHeightMap,
        cells: *const f32,
        cells_len: usize,
        neighbours: *const u32,
        neighbours_len: usize,
        fringe: *const f32,
        fringe_len: usize,
        customs: *const u8,
        customs_len: usize,
        corners: *const f32,
        corners_len: usize,
        numbers: *const f32,
        numbers_len: usize,
        marks: *const u8,
        marks_len: usize,
    ) -> CAnswer;

    pub fn hosirekar_heightmap_faces(
        job: CHeightMap,
        cells: *const f32,
        cells_len: usize,
        neighbours: *const u32,
        neighbours_len: usize,
        fringe: *const f32,
        fringe_len: usize,
        customs: *const u8,
        customs_len: usize,
        corners: *const f32,
        corners_len: usize,
        numbers: *const f32,
        numbers_len: usize,
        marks: *const u8,
        marks_len: usize,
    ) -> CFaces;

    pub fn hosirekar_heightmap_window(
        job: CHeightMap,
        cells: *const f32,
        cells_len: usize,
        neighbours: *const u32,
        neighbours_len: usize,
        fringe: *const f32,
        fringe_len: usize,
        customs: *const u8,
        customs_len: usize,
        corners: *const f32,
        corners_len: usize,
        numbers: *const f32,
        numbers_len: usize,
        marks: *const u8,
        marks_len: usize,
        number: usize,
    ) -> CWindow;

    pub fn hosirekar_heightmap_why(
        job: CHeightMap,
        cells: *const f32,
        cells_len: usize,
        neighbours: *const u32,
        neighbours_len: usize,
        fringe: *const f32,
        fringe_len: usize,
        customs: *const u8,
        customs_len: usize,
        corners: *const f32,
        corners_len: usize,
        numbers: *const f32,
        numbers_len: usize,
        marks: *const u8,
        marks_len: usize,
        cell: usize,
        side: usize,
    ) -> CWhy;

    pub fn hosirekar_heightmap_which(
        job: CHeightMap,
        cells: *const f32,
        cells_len: usize,
        neighbours: *const u32,
        neighbours_len: usize,
        fringe: *const f32,
        fringe_len: usize,
        customs: *const u8,
        customs_len: usize,
        corners: *const f32,
        corners_len: usize,
        numbers: *const f32,
        numbers_len: usize,
        marks: *const u8,
        marks_len: usize,
        number: usize,
    ) -> CWhich;

    pub fn hosirekar_heightmap_build(
        job: CHeightMap,
        cells: *const f32,
        cells_len: usize,
        neighbours: *const u32,
        neighbours_len: usize,
        fringe: *const f32,
        fringe_len: usize,
        customs: *const u8,
        customs_len: usize,
        corners: *const f32,
        corners_len: usize,
        numbers: *const f32,
        numbers_len: usize,
        marks: *const u8,
        marks_len: usize,
        vertices: *mut f32,
        vertices_len: usize,
        normals: *mut f32,
        normals_len: usize,
        uvs: *mut f32,
        uvs_len: usize,
        indices: *mut u16,
        indices_len: usize,
    ) -> CAnswer;

    pub fn hosirekar_heightmap_face(
        job: CHeightMap,
        cells: *const f32,
        cells_len: usize,
        neighbours: *const u32,
        neighbours_len: usize,
        fringe: *const f32,
        fringe_len: usize,
        customs: *const u8,
        customs_len: usize,
        corners: *const f32,
        corners_len: usize,
        numbers: *const f32,
        numbers_len: usize,
        marks: *const u8,
        marks_len: usize,
        number: usize,
        vertices: *mut f32,
        vertices_len: usize,
        normals: *mut f32,
        normals_len: usize,
        uvs: *mut f32,
        uvs_len: usize,
        indices: *mut u16,
        indices_len: usize,
    ) -> CAnswer;

    pub fn hosirekar_cheap_column_plan(
        job: CCheapColumn,
        corners: *const f32,
        corners_len: usize,
    ) -> CAnswer;

    pub fn hosirekar_cheap_column_faces(
        job: CCheapColumn,
        corners: *const f32,
        corners_len: usize,
    ) -> CFaces;

    pub fn hosirekar_cheap_column_window(
        job: CCheapColumn,
        corners: *const f32,
        corners_len: usize,
        number: usize,
    ) -> CWindow;

    pub fn hosirekar_cheap_column_build(
        job: CCheapColumn,
        corners: *const f32,
        corners_len: usize,
        vertices: *mut f32,
        vertices_len: usize,
        normals: *mut f32,
        normals_len: usize,
        uvs: *mut f32,
        uvs_len: usize,
        indices: *mut u16,
        indices_len: usize,
    ) -> CAnswer;

    pub fn hosirekar_cheap_column_face(
        job: CCheapColumn,
        corners: *const f32,
        corners_len: usize,
        number: usize,
        vertices: *mut f32,
        vertices_len: usize,
        normals: *mut f32,
        normals_len: usize,
        uvs: *mut f32,
        uvs_len: usize,
        indices: *mut u16,
        indices_len: usize,
    ) -> CAnswer;

    pub fn hosirekar_merge(
        source: CCounts,
        svertices: *const f32,
        svertices_len: usize,
        snormals: *const f32,
        snormals_len: usize,
        suvs: *const f32,
        suvs_len: usize,
        sindices: *const u16,
        sindices_len: usize,
        target: CCounts,
        vertices: *mut f32,
        vertices_len: usize,
        normals: *mut f32,
        normals_len: usize,
        uvs: *mut f32,
        uvs_len: usize,
        indices: *mut u16,
        indices_len: usize,
    ) -> CAnswer;

    pub fn hosirekar_scale(
        counts: CCounts,
        by: CVec3,
        vertices: *mut f32,
        vertices_len: usize,
        normals: *const f32,
        normals_len: usize,
        uvs: *const f32,
        uvs_len: usize,
        indices: *const u16,
        indices_len: usize,
    ) -> CAnswer;

    pub fn hosirekar_offset(
        counts: CCounts,
        by: CVec3,
        vertices: *mut f32,
        vertices_len: usize,
        normals: *const f32,
        normals_len: usize,
        uvs: *const f32,
        uvs_len: usize,
        indices: *const u16,
        indices_len: usize,
    ) -> CAnswer;

    pub fn hosirekar_texture_scale(
        counts: CCounts,
        by: CVec2,
        vertices: *const f32,
        vertices_len: usize,
        normals: *const f32,
        normals_len: usize,
        uvs: *mut f32,
        uvs_len: usize,
        indices: *const u16,
        indices_len: usize,
    ) -> CAnswer;

    pub fn hosirekar_centroid(
        counts: CCounts,
        vertices: *const f32,
        vertices_len: usize,
        normals: *const f32,
        normals_len: usize,
        uvs: *const f32,
        uvs_len: usize,
        indices: *const u16,
        indices_len: usize,
    ) -> CCentroid;

    pub fn hosirekar_uv_centroid(
        counts: CCounts,
        vertices: *const f32,
        vertices_len: usize,
        normals: *const f32,
        normals_len: usize,
        uvs: *const f32,
        uvs_len: usize,
        indices: *const u16,
        indices_len: usize,
    ) -> CUvCentroid;

    pub fn hosirekar_stl_write(
        counts: CCounts,
        vertices: *const f32,
        vertices_len: usize,
        normals: *const f32,
        normals_len: usize,
        uvs: *const f32,
        uvs_len: usize,
        indices: *const u16,
        indices_len: usize,
        bytes: *mut u8,
        bytes_len: usize,
    ) -> CFile;

    pub fn hosirekar_stl_read(
        bytes: *const u8,
        bytes_len: usize,
        vertices: *mut f32,
        vertices_len: usize,
        normals: *mut f32,
        normals_len: usize,
        uvs: *mut f32,
        uvs_len: usize,
        indices: *mut u16,
        indices_len: usize,
    ) -> CAnswer;
}
