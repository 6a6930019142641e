//! The same jobs as calls of our own code, through the archive.

use crate::buffers::{Counts, Lent};
use crate::builders::{Choice, Column, Plane, Standing};
use crate::map_call_faults;
use crate::map_calls::{self, Lists};
use crate::mesh_cases::Column as CheapColumn;
use crate::numbers::LIMIT;
use crate::random::Random;
use crate::{FaceOptions, InsetScaleMode, MeshInfo};
use glam::{Vec2, Vec3};
use hosirekar_sys::{self as sys, CAnswer, CCheapColumn, CColumn, CHeightMap, CPlane};

/// A job that hexx builds and that we build.
pub trait Job: std::fmt::Debug {
    /// hexx's own mesh; with a turn or a bottom, that of the written steps.
    fn wanted(&self) -> MeshInfo;
    /// The counts of each face, in order.
    fn face_counts(&self) -> Vec<Counts>;
    /// The same as a call of ours.
    fn call(&self) -> Call;
}

/// Numbers that no job may carry.
pub const BEYOND: [f32; 5] = [
    LIMIT.next_up(),
    -LIMIT.next_up(),
    f32::NAN,
    f32::INFINITY,
    f32::NEG_INFINITY,
];

/// What goes over by value.
#[derive(Debug, Clone, Copy)]
pub enum Kind {
    Plane(CPlane),
    Column(CColumn),
    Cheap(CCheapColumn),
    Map(CHeightMap),
}

/// What goes over, the lists too.
#[derive(Debug, Clone)]
pub struct Call {
    pub kind: Kind,
    /// What a map has beside the rest.
    pub lists: Lists,
    pub pairs: Vec<f32>,
    pub corners: Vec<f32>,
    pub numbers: Vec<f32>,
    pub marks: Vec<u8>,
}

impl Call {
    /// The plan.
    #[must_use]
    pub fn plan(&self) -> CAnswer {
        let (corners, numbers, marks) = (&self.corners, &self.numbers, &self.marks);
        match self.kind {
            Kind::Plane(job) => sys::hosirekar_plane_plan(job, corners, numbers, marks),
            Kind::Column(job) => {
                sys::hosirekar_column_plan(job, &self.pairs, corners, numbers, marks)
            }
            Kind::Cheap(job) => sys::hosirekar_cheap_column_plan(job, corners),
            Kind::Map(job) => map_calls::plan(job, self),
        }
    }

    /// The whole build.
    pub fn build(&self, to: Lent) -> CAnswer {
        let (corners, numbers, marks) = (&self.corners, &self.numbers, &self.marks);
        let (v, n, u, i) = (to.vertices, to.normals, to.uvs, to.indices);
        match self.kind {
            Kind::Plane(job) => {
                sys::hosirekar_plane_build(job, corners, numbers, marks, v, n, u, i)
            }
            Kind::Column(job) => {
                sys::hosirekar_column_build(job, &self.pairs, corners, numbers, marks, v, n, u, i)
            }
            Kind::Cheap(job) => sys::hosirekar_cheap_column_build(job, corners, v, n, u, i),
            Kind::Map(job) => map_calls::build(job, self, [v, n, u], i),
        }
    }

    /// One face.
    pub fn face(&self, face: usize, to: Lent) -> CAnswer {
        let (corners, numbers, marks) = (&self.corners, &self.numbers, &self.marks);
        let (v, n, u, i) = (to.vertices, to.normals, to.uvs, to.indices);
        match self.kind {
            Kind::Plane(job) => {
                sys::hosirekar_plane_face(job, corners, numbers, marks, face, v, n, u, i)
            }
            Kind::Column(job) => {
                let pairs = &self.pairs;
                sys::hosirekar_column_face(job, pairs, corners, numbers, marks, face, v, n, u, i)
            }
            Kind::Cheap(job) => sys::hosirekar_cheap_column_face(job, corners, face, v, n, u, i),
            Kind::Map(job) => map_calls::face(job, self, face, [v, n, u], i),
        }
    }

    /// The same call with a fault, and the number that it must be refused with.
    #[must_use]
    pub fn faulty(&self, random: &mut Random) -> (u32, Self) {
        let mut call = self.clone();
        if let Kind::Map(mut job) = self.kind {
            let number = map_call_faults::put(&mut call, &mut job, random);
            call.kind = Kind::Map(job);
            return (number, call);
        }
        let number = match random.below(6) {
            0 => {
                call.corners.push(0.0);
                1
            }
            1 => {
                call.corners.pop();
                // The length of a list is tested before its numbers.
                call.corners[0] = random.pick(&BEYOND);
                1
            }
            fault => call.with_fault(fault, random),
        };
        (number, call)
    }

    /// A fault that only some kinds of jobs can have, else a corner out of range.
    fn with_fault(&mut self, fault: u32, random: &mut Random) -> u32 {
        let beyond = random.pick(&BEYOND);
        match (fault, &mut self.kind) {
            (2, Kind::Plane(job)) => {
                job.option = (self.marks.len() / 4) as u8;
                1
            }
            (3, Kind::Plane(_) | Kind::Column(_)) => {
                self.numbers.extend([0.0; 9]);
                // No kind of inset has this number.
                self.marks.extend([0, 0, 3, 0]);
                1
            }
            (4, Kind::Column(job)) => {
                job.height = beyond;
                2
            }
            (5, Kind::Column(job)) if job.sides.iter().any(|side| side.given) => {
                job.subdivisions.given = true;
                job.subdivisions.number = random.pick(&[16_385, 1 << 30, u32::MAX]);
                4
            }
            _ => {
                self.corners[random.below(12) as usize] = beyond;
                2
            }
        }
    }
}

/// The counts of a face of so many corners with these options.
pub(crate) fn counts(corners: usize, options: &FaceOptions) -> Counts {
    // Two triangles fewer than corners, and two on each edge of an inset.
    let inner = 3 * (corners - 2);
    let (vertices, indices) = match options.insetting {
        None => (corners, inner),
        Some(inset) => (
            2 * corners,
            6 * corners + usize::from(inset.keep_inner_face) * inner,
        ),
    };
    Counts { vertices, indices }
}

pub(crate) fn flat(points: &[Vec2]) -> Vec<f32> {
    points.iter().flat_map(|p| p.to_array()).collect()
}

pub(crate) fn vec2(v: Vec2) -> sys::CVec2 {
    sys::CVec2 { x: v.x, y: v.y }
}

/// A vector as it goes over.
#[must_use]
pub fn vec3(v: Vec3) -> sys::CVec3 {
    let [x, y, z] = v.to_array();
    sys::CVec3 { x, y, z }
}

fn choice3(v: Option<Vec3>) -> sys::CChoice3 {
    sys::CChoice3 {
        given: v.is_some(),
        // What is not given is not read.
        value: vec3(v.unwrap_or(Vec3::NAN)),
    }
}

/// A scale, the rows of a turn and an offset, each if given.
pub(crate) fn placement(
    scale: Option<Vec3>,
    rows: Option<[Vec3; 3]>,
    offset: Option<Vec3>,
) -> sys::CPlacement {
    let [first, second, third] = rows.unwrap_or([Vec3::NAN; 3]).map(vec3);
    sys::CPlacement {
        scale: choice3(scale),
        turn: sys::CTurn {
            given: rows.is_some(),
            first,
            second,
            third,
        },
        offset: choice3(offset),
    }
}

impl Standing {
    fn placement(&self) -> sys::CPlacement {
        placement(self.scale, self.rows(), self.offset)
    }
}

impl Choice {
    fn number(self) -> u8 {
        match self {
            Self::Absent | Self::Default => 255,
            Self::Entry(entry) => entry as u8,
        }
    }

    pub(crate) fn given(self) -> sys::CChoice {
        match self {
            // An option that names nothing, were it read.
            Self::Absent => sys::CChoice {
                given: false,
                option: 254,
            },
            _ => sys::CChoice {
                given: true,
                option: self.number(),
            },
        }
    }
}

/// The numbers and the marks of a table of options.
pub(crate) fn table(options: &[FaceOptions]) -> (Vec<f32>, Vec<u8>) {
    let (mut numbers, mut marks) = (Vec::new(), Vec::new());
    for FaceOptions { uv, insetting } in options {
        let pairs = [uv.scale_factor, uv.offset, uv.rect.min, uv.rect.max];
        numbers.extend(flat(&pairs));
        numbers.push(insetting.map_or(0.0, |inset| inset.scale));
        let kind = insetting.map_or(0, |inset| match inset.mode {
            InsetScaleMode::Centroid => 1,
            InsetScaleMode::SmallestEdge => 2,
        });
        let kept = insetting.is_some_and(|inset| inset.keep_inner_face);
        marks.extend([u8::from(uv.flip.x), u8::from(uv.flip.y), kind, kept.into()]);
    }
    (numbers, marks)
}

impl Job for Plane {
    fn wanted(&self) -> MeshInfo {
        match self.standing.turn {
            None => self.hexx(),
            Some(_) => self.written(),
        }
    }

    fn face_counts(&self) -> Vec<Counts> {
        let options = self.choice.options(&self.options);
        options.iter().map(|options| counts(6, options)).collect()
    }

    fn call(&self) -> Call {
        let (numbers, marks) = table(&self.options);
        Call {
            kind: Kind::Plane(CPlane {
                position: vec2(self.standing.position),
                option: self.choice.number(),
                placement: self.standing.placement(),
            }),
            lists: Lists::default(),
            pairs: Vec::new(),
            corners: flat(&self.corners),
            numbers,
            marks,
        }
    }
}

impl Job for Column {
    fn wanted(&self) -> MeshInfo {
        match (self.standing.turn, self.bottom) {
            (None, Choice::Absent) => self.hexx(),
            _ => self.written(),
        }
    }

    fn face_counts(&self) -> Vec<Counts> {
        let sides = self.sides.iter();
        let sides = sides.filter_map(|side| side.options(&self.options));
        let parts = self.parts() as usize;
        let sides = sides.flat_map(|options| vec![counts(4, &options); parts]);
        let caps = [self.top, self.bottom];
        let caps = caps
            .into_iter()
            .filter_map(|cap| cap.options(&self.options));
        sides
            .chain(caps.map(|options| counts(6, &options)))
            .collect()
    }

    fn call(&self) -> Call {
        let (numbers, marks) = table(&self.options);
        Call {
            kind: Kind::Column(CColumn {
                height: self.height,
                subdivisions: sys::CSubdivisions {
                    given: self.subdivisions.is_some(),
                    number: self.subdivisions.unwrap_or(u32::MAX),
                },
                sides: self.sides.map(Choice::given),
                top: self.top.given(),
                bottom: self.bottom.given(),
                position: vec2(self.standing.position),
                placement: self.standing.placement(),
            }),
            lists: Lists::default(),
            pairs: flat(self.ends.as_flattened()),
            corners: flat(&self.corners),
            numbers,
            marks,
        }
    }
}

impl Job for CheapColumn {
    fn wanted(&self) -> MeshInfo {
        self.hexx()
    }

    fn face_counts(&self) -> Vec<Counts> {
        vec![Counts {
            vertices: 12,
            indices: 48,
        }]
    }

    fn call(&self) -> Call {
        Call {
            kind: Kind::Cheap(CCheapColumn {
                centre: vec2(self.centre),
                height: self.height,
            }),
            lists: Lists::default(),
            pairs: Vec::new(),
            corners: flat(&self.corners),
            numbers: Vec::new(),
            marks: Vec::new(),
        }
    }
}
