//! Writes cases and hexx's answers for stored meshes and merges, and for cheap
//! columns, as cells.

use crate::MeshInfo;
use crate::line::{Line, part};
use crate::mesh_cases::{Cases, Column, INDICES, Merge, SUMMED, VERTICES};
use std::io::{self, Write};

/// The cells of a mesh with room for so many vertices and indices.
const fn cells(vertices: usize, indices: usize) -> usize {
    2 + 8 * vertices + indices
}

/// The cells of a mesh, and of one whose centroid is asked for.
const MESH: usize = cells(VERTICES, INDICES);
/// See [`MESH`].
const SUM: usize = cells(SUMMED, INDICES);
/// The cells of a merged mesh.
const MERGED: usize = cells(2 * VERTICES, 2 * INDICES);
/// The cells of a cheap column, which always has the same counts.
const COLUMN: usize = cells(12, 48) - 2;

/// Writes a record of the stored meshes and merges of `cases`.
pub fn write(out: &mut impl Write, cases: &Cases) -> io::Result<()> {
    part(out, "scales", 3 + 2 * MESH, &cases.scales, |line, case| {
        let (by, mesh) = case;
        line.given(&by.to_array());
        line.small(mesh);
        line.small(&mesh.clone().with_scale(*by));
    })?;
    part(
        out,
        "offsets",
        3 + 2 * MESH,
        &cases.offsets,
        |line, case| {
            let (by, mesh) = case;
            line.given(&by.to_array());
            line.small(mesh);
            line.small(&mesh.clone().with_offset(*by));
        },
    )?;
    let uv_scales = &cases.uv_scales;
    part(out, "uvscales", 2 + 2 * MESH, uv_scales, |line, case| {
        let (by, mesh) = case;
        line.given(&by.to_array());
        line.small(mesh);
        line.small(&mesh.clone().with_uv_scale(*by));
    })?;
    part(out, "means", SUM + 3, &cases.means, |line, mesh| {
        line.mesh(mesh, SUMMED, INDICES);
        line.vec3(mesh.centroid());
    })?;
    part(out, "uvmeans", SUM + 2, &cases.uv_means, |line, mesh| {
        line.mesh(mesh, SUMMED, INDICES);
        line.vec2(mesh.uv_centroid());
    })?;
    part(out, "merges", 2 * MESH + MERGED, &cases.merges, Line::merge)
}

/// Writes a record of the cheap columns of `cases`.
pub fn write_columns(out: &mut impl Write, cases: &Cases) -> io::Result<()> {
    part(out, "columns", 15 + COLUMN, &cases.columns, Line::column)
}

impl Line {
    fn small(&mut self, mesh: &MeshInfo) {
        self.mesh(mesh, VERTICES, INDICES);
    }

    fn merge(&mut self, case: &Merge) {
        self.small(&case.source);
        self.small(&case.target);
        self.mesh(&case.hexx(), 2 * VERTICES, 2 * INDICES);
    }

    fn column(&mut self, case: &Column) {
        for corner in case.corners {
            self.given(&corner.to_array());
        }
        self.given(&case.centre.to_array());
        self.given(&[case.height]);
        let mesh = case.hexx();
        assert!(mesh.vertices.len() == 12 && mesh.indices.len() == 48);
        self.lists(&mesh, 12, 48);
    }
}
