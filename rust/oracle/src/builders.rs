//! Planes and columns: what makes one, hexx's own answer, and the answer of
//! the written steps where a turn or a bottom makes hexx's numbers others.

use crate::answers::{HexagonCase, QuadCase, When, hexagon, quad};
use crate::{ColumnMeshBuilder, FaceOptions, Hex, HexLayout, MeshInfo, Place, PlaneMeshBuilder};
use glam::{Mat3, Quat, Vec2, Vec3, vec3};

/// The option of a face.
#[derive(Debug, Clone, Copy, PartialEq, Eq)]
pub enum Choice {
    /// The face is not there.
    Absent,
    /// The default of a face.
    Default,
    /// An entry of the job's table.
    Entry(usize),
}

/// Where a whole mesh stands.
#[derive(Debug, Clone, Copy)]
pub struct Standing {
    /// The middle of the hex that it stands on.
    pub position: Vec2,
    /// Whether hexx is told to leave the layout's origin out; the position is
    /// then the one without it.
    pub centred: bool,
    pub scale: Option<Vec3>,
    pub turn: Option<Quat>,
    pub offset: Option<Vec3>,
}

/// What makes a plane.
#[derive(Debug, Clone)]
pub struct Plane {
    pub corners: [Vec2; 6],
    pub choice: Choice,
    pub options: Vec<FaceOptions>,
    pub standing: Standing,
}

/// What makes a column.
#[derive(Debug, Clone)]
pub struct Column {
    /// The left and right ends of its sides.
    pub ends: [[Vec2; 2]; 6],
    /// The corners of its caps.
    pub corners: [Vec2; 6],
    pub height: f32,
    pub subdivisions: Option<u32>,
    pub sides: [Choice; 6],
    pub top: Choice,
    pub bottom: Choice,
    pub options: Vec<FaceOptions>,
    pub standing: Standing,
}

/// The hex that every plane and column stands on; the layout's zero is that of
/// the caps.
const SPOT: Hex = Hex::Cell(0);

impl Choice {
    /// The options that it names.
    #[must_use]
    pub fn options(self, table: &[FaceOptions]) -> Option<FaceOptions> {
        match self {
            Self::Absent => None,
            Self::Default => Some(FaceOptions::new()),
            Self::Entry(entry) => Some(table[entry]),
        }
    }
}

impl Standing {
    /// A layout whose hex [`SPOT`] has this position, and whose other answers
    /// no plane and no column should take.
    fn layout(&self, corners: [Vec2; 6], ends: [[Vec2; 2]; 6]) -> HexLayout {
        let other = Vec2::splat(-7777.5);
        let [aligned, world] = match self.centred {
            true => [self.position, other],
            false => [other, self.position],
        };
        let spot = Place {
            aligned,
            world,
            corners: [other; 6],
            sides: [[other; 2]; 6],
        };
        let zero = Place {
            aligned: Vec2::ZERO,
            ..spot
        };
        HexLayout {
            origin: other,
            corners,
            sides: ends,
            zero,
            cells: vec![spot],
        }
    }

    /// What is added to every position in the end.
    #[must_use]
    pub fn added(&self) -> Vec3 {
        let spot = vec3(self.position.x, 0.0, self.position.y);
        self.offset.map_or(spot, |offset| spot + offset)
    }

    /// The nine numbers of the turn, row by row.
    #[must_use]
    pub fn rows(&self) -> Option<[Vec3; 3]> {
        let columns = Mat3::from_quat(self.turn?);
        Some([columns.row(0), columns.row(1), columns.row(2)])
    }

    /// Scales, turns by nine numbers and moves, each step written out.
    fn stand(&self, mut mesh: MeshInfo) -> MeshInfo {
        if let Some(scale) = self.scale {
            mesh = mesh.with_scale(scale);
        }
        if let Some(rows) = self.rows() {
            let all = mesh.vertices.iter_mut().chain(&mut mesh.normals);
            all.for_each(|v| *v = turned(&rows, *v));
        }
        mesh.with_offset(self.added())
    }
}

/// Each component adds its products from left to right.
fn turned(rows: &[Vec3; 3], v: Vec3) -> Vec3 {
    Vec3::from_array(rows.map(|row| row.x * v.x + row.y * v.y + row.z * v.z))
}

/// The exact half turn of a bottom.
fn half_turned(mut mesh: MeshInfo) -> MeshInfo {
    let all = mesh.vertices.iter_mut().chain(&mut mesh.normals);
    all.for_each(|v| *v = vec3(-v.x, -v.y, v.z));
    mesh
}

impl Plane {
    /// Its options.
    fn face(&self) -> FaceOptions {
        let options = self.choice.options(&self.options);
        options.expect("a plane has its face")
    }

    /// hexx's own mesh.
    #[must_use]
    pub fn hexx(&self) -> MeshInfo {
        self.builder(&self.layout()).build()
    }

    /// The layout that it is built in.
    #[must_use]
    pub fn layout(&self) -> HexLayout {
        self.standing.layout(self.corners, [[Vec2::NAN; 2]; 6])
    }

    /// hexx's builder of it.
    #[must_use]
    pub fn builder<'l>(&self, layout: &'l HexLayout) -> PlaneMeshBuilder<'l> {
        let standing = &self.standing;
        PlaneMeshBuilder {
            pos: SPOT,
            offset: standing.offset,
            scale: standing.scale,
            rotation: standing.turn,
            face_options: self.face(),
            center_aligned: standing.centred,
            ..PlaneMeshBuilder::new(layout)
        }
    }

    /// The mesh of the written steps, over hexx's face.
    #[must_use]
    pub fn written(&self) -> MeshInfo {
        self.standing.stand(cap(self.corners, self.face()))
    }

    /// The greatest magnitude of the job, by which distances are measured.
    #[must_use]
    pub fn magnitude(&self) -> f32 {
        magnitude(&self.standing, |standing| {
            let plain = Self {
                standing,
                ..self.clone()
            };
            plain.written()
        })
    }
}

impl Column {
    /// How many parts a side has.
    #[must_use]
    pub fn parts(&self) -> u32 {
        self.subdivisions.unwrap_or(0).max(1)
    }

    /// How many faces it has.
    #[must_use]
    pub fn faces(&self) -> u32 {
        let present = |choice: &Choice| u32::from(*choice != Choice::Absent);
        let sides: u32 = self.sides.iter().map(present).sum();
        sides * self.parts() + present(&self.top) + present(&self.bottom)
    }

    /// hexx's own mesh.
    #[must_use]
    pub fn hexx(&self) -> MeshInfo {
        self.builder(&self.layout()).build()
    }

    /// The layout that it is built in.
    #[must_use]
    pub fn layout(&self) -> HexLayout {
        self.standing.layout(self.corners, self.ends)
    }

    /// hexx's builder of it.
    #[must_use]
    pub fn builder<'l>(&self, layout: &'l HexLayout) -> ColumnMeshBuilder<'l> {
        let standing = &self.standing;
        let cap = |choice: Choice| {
            let face_options = choice.options(&self.options)?;
            Some(PlaneMeshBuilder::new(layout).with_face_options(face_options))
        };
        ColumnMeshBuilder {
            pos: SPOT,
            offset: standing.offset,
            scale: standing.scale,
            rotation: standing.turn,
            subdivisions: self.subdivisions.map(|count| count as usize),
            top_face: cap(self.top),
            bottom_face: cap(self.bottom),
            sides_options: self.sides.map(|side| side.options(&self.options)),
            center_aligned: standing.centred,
            ..ColumnMeshBuilder::new(layout, self.height)
        }
    }

    /// The mesh of the written steps, over hexx's faces.
    #[must_use]
    pub fn written(&self) -> MeshInfo {
        let mut mesh = MeshInfo::default();
        for (ends, side) in self.ends.into_iter().zip(self.sides) {
            if let Some(options) = side.options(&self.options) {
                let all = (0..self.parts()).map(|part| self.part(ends, options, part));
                all.for_each(|part| mesh.merge_with(part));
            }
        }
        if let Some(options) = self.top.options(&self.options) {
            let level = 0.0 * self.height;
            let rise = Vec3::ZERO + vec3(level, self.height, level);
            mesh.merge_with(cap(self.corners, options).with_offset(rise));
        }
        if let Some(options) = self.bottom.options(&self.options) {
            let bottom = cap(self.corners, options).with_offset(Vec3::ZERO);
            mesh.merge_with(half_turned(bottom));
        }
        self.standing.stand(mesh)
    }

    fn part(&self, sides: [Vec2; 2], options: FaceOptions, part: u32) -> MeshInfo {
        let delta = self.height / self.parts() as f32;
        let foot = delta * part as f32;
        quad(&QuadCase {
            sides,
            heights: [foot, foot + delta],
            range: None,
            options,
            when: When::Before,
        })
    }

    /// The greatest magnitude of the job, by which distances are measured.
    #[must_use]
    pub fn magnitude(&self) -> f32 {
        magnitude(&self.standing, |standing| {
            let plain = Self {
                standing,
                ..self.clone()
            };
            plain.written()
        })
    }
}

/// A hexagon whose uvs are altered last, before it is moved.
fn cap(corners: [Vec2; 6], options: FaceOptions) -> MeshInfo {
    hexagon(&HexagonCase {
        corners,
        options,
        when: When::After,
    })
}

/// The greatest component of what is added, or of the mesh that `build` makes
/// where nothing is scaled, turned or added, times the greatest of the scale:
/// a half turn that is not exact mixes the components before they are scaled.
fn magnitude(standing: &Standing, build: impl Fn(Standing) -> MeshInfo) -> f32 {
    let plain = Standing {
        position: Vec2::ZERO,
        scale: None,
        turn: None,
        offset: None,
        ..*standing
    };
    let greatest = |most: f32, v: &Vec3| most.max(v.abs().max_element());
    let unscaled = build(plain).vertices.iter().fold(0.0, greatest);
    let scale = standing.scale.map_or(1.0, |scale| greatest(0.0, &scale));
    greatest(unscaled * scale, &standing.added())
}
