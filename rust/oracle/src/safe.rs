//! The same jobs as the safe crate has them.

use crate::buffers::Buffers;
use crate::builders::{Column, Plane, Standing};
use crate::maps::{Map, custom};
use crate::mesh_cases::Column as CheapColumn;
use crate::{FaceOptions, InsetScaleMode};
use glam::{Vec2, Vec3};
use hosirekar as safe;

/// A job that the safe crate has too.
pub trait Safe {
    /// Its type there.
    type Job: safe::Job;
    /// The same job.
    fn safe(&self) -> Self::Job;
}

/// The lists of a mesh of the safe crate.
#[must_use]
pub fn lists(mesh: safe::Mesh) -> Buffers {
    Buffers {
        vertices: mesh.vertices.into_flattened(),
        normals: mesh.normals.into_flattened(),
        uvs: mesh.uvs.into_flattened(),
        indices: mesh.indices,
    }
}

/// The four lists as the safe crate is lent them; what is left over of a list
/// of points is not.
pub fn lent(buffers: &mut Buffers) -> safe::MeshBuffers<'_> {
    safe::MeshBuffers {
        vertices: buffers.vertices.as_chunks_mut().0,
        normals: buffers.normals.as_chunks_mut().0,
        uvs: buffers.uvs.as_chunks_mut().0,
        indices: &mut buffers.indices,
    }
}

fn face(options: FaceOptions) -> safe::FaceOptions {
    let FaceOptions { uv, insetting } = options;
    safe::FaceOptions {
        uv: safe::UVOptions {
            scale_factor: uv.scale_factor.to_array(),
            flip: [uv.flip.x, uv.flip.y],
            offset: uv.offset.to_array(),
            rect: safe::Rect {
                min: uv.rect.min.to_array(),
                max: uv.rect.max.to_array(),
            },
        },
        insetting: insetting.map(|inset| safe::InsetOptions {
            keep_inner_face: inset.keep_inner_face,
            scale: inset.scale,
            mode: match inset.mode {
                InsetScaleMode::Centroid => safe::InsetScaleMode::Centroid,
                InsetScaleMode::SmallestEdge => safe::InsetScaleMode::SmallestEdge,
            },
        }),
    }
}

impl Standing {
    fn rotation(&self) -> Option<[[f32; 3]; 3]> {
        self.rows().map(|rows| rows.map(|row| row.to_array()))
    }
}

impl Safe for Plane {
    type Job = safe::Plane;

    fn safe(&self) -> safe::Plane {
        let options = self.choice.options(&self.options);
        safe::Plane {
            corners: self.corners.map(|corner| corner.to_array()),
            position: self.standing.position.to_array(),
            options: options.map(face).unwrap_or_default(),
            scale: self.standing.scale.map(Vec3::into),
            rotation: self.standing.rotation(),
            offset: self.standing.offset.map(Vec3::into),
        }
    }
}

impl Safe for Column {
    type Job = safe::Column;

    fn safe(&self) -> safe::Column {
        let options = |choice: crate::builders::Choice| choice.options(&self.options).map(face);
        safe::Column {
            height: self.height,
            subdivisions: self.subdivisions,
            side_ends: self.ends.map(|ends| ends.map(|end| end.to_array())),
            sides: self.sides.map(options),
            cap_corners: self.corners.map(|corner| corner.to_array()),
            top: options(self.top),
            bottom: options(self.bottom),
            position: self.standing.position.to_array(),
            scale: self.standing.scale.map(Vec3::into),
            rotation: self.standing.rotation(),
            offset: self.standing.offset.map(Vec3::into),
        }
    }
}

impl Safe for CheapColumn {
    type Job = safe::CheapColumn;

    fn safe(&self) -> safe::CheapColumn {
        safe::CheapColumn {
            corners: self.corners.map(|corner| corner.to_array()),
            centre: self.centre.to_array(),
            height: self.height,
        }
    }
}

impl Map {
    fn safe_cell(&self, cell: usize) -> safe::Cell {
        let ends = |side| self.ends(cell, side).map(|end| end.to_array());
        let beyond = |side| self.neighbour(cell, side).map(|cell| cell as usize);
        safe::Cell {
            height: self.height(cell),
            position: self.position(cell).to_array(),
            side_ends: std::array::from_fn(ends),
            neighbours: std::array::from_fn(beyond),
        }
    }

    /// Of the seven custom numbers of a cell.
    fn safe_customs(&self, numbers: &[u8; 7]) -> safe::CellOptions {
        let options = |number: u8| custom(number, &self.options).map(face);
        let [cap, sides @ ..] = numbers.map(options);
        safe::CellOptions { cap, sides }
    }
}

impl Safe for Map {
    type Job = safe::HeightMap;

    fn safe(&self) -> safe::HeightMap {
        let cells = 0..self.count();
        let customs = self.customs.as_ref().map(|list| {
            let each = list.as_chunks().0.iter();
            each.map(|numbers| self.safe_customs(numbers)).collect()
        });
        safe::HeightMap {
            cells: cells.map(|cell| self.safe_cell(cell)).collect(),
            cap_corners: self.corners.map(|corner| corner.to_array()),
            caps: self.caps.options(&self.options).map(face),
            sides: self.sides.options(&self.options).map(face),
            custom_options: customs,
            fringe: match &self.fringe {
                None => safe::Fringe::None,
                Some(heights) => safe::Fringe::Heights(heights.as_chunks().0.to_vec()),
            },
            height_range: self.range.map(|[min, max]| min..=max),
            origin: self.origin.map(Vec2::into),
            scale: self.scale.map(Vec3::into),
            rotation: self.turn.map(|turn| turn.rows().map(Vec3::into)),
            offset: self.offset.map(Vec3::into),
        }
    }
}
