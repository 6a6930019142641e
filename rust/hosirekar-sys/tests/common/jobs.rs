//! The kinds of job with their lists, the calls of each, and what holds them to a mesh.

use super::{done, longer, no_room, not_empty, refused, shortened, Lengths, Lent, Mesh};
use hosirekar_sys::*;
use std::fmt::Display;
use std::ops::Range;

/// The calls of a job.
pub trait Job {
    fn plan(&self) -> CAnswer;
    fn faces(&self) -> CFaces;
    fn window(&self, number: usize) -> CWindow;
    fn build(&self, to: Lent) -> CAnswer;
    fn face(&self, number: usize, to: Lent) -> CAnswer;
}

/// A table of options, as two lists.
#[derive(Clone, Debug, Default)]
pub struct Table {
    pub numbers: Vec<f32>,
    pub marks: Vec<u8>,
}

#[derive(Clone, Debug)]
pub struct Plane {
    pub job: CPlane,
    pub corners: Vec<f32>,
    pub table: Table,
}

#[derive(Clone, Debug)]
pub struct Column {
    pub job: CColumn,
    pub pairs: Vec<f32>,
    pub corners: Vec<f32>,
    pub table: Table,
}

#[derive(Clone, Debug)]
pub struct CheapColumn {
    pub job: CCheapColumn,
    pub corners: Vec<f32>,
}

#[derive(Clone, Debug)]
pub struct HeightMap {
    pub job: CHeightMap,
    pub cells: Vec<f32>,
    pub neighbours: Vec<u32>,
    pub fringe: Vec<f32>,
    pub customs: Vec<u8>,
    pub corners: Vec<f32>,
    pub table: Table,
}

impl Job for Plane {
    fn plan(&self) -> CAnswer {
        let Table { numbers, marks } = &self.table;
        hosirekar_plane_plan(self.job, &self.corners, numbers, marks)
    }

    fn faces(&self) -> CFaces {
        hosirekar_plane_faces(
            self.job,
            &self.corners,
            &self.table.numbers,
            &self.table.marks,
        )
    }

    fn window(&self, number: usize) -> CWindow {
        hosirekar_plane_window(
            self.job,
            &self.corners,
            &self.table.numbers,
            &self.table.marks,
            number,
        )
    }

    fn build(&self, to: Lent) -> CAnswer {
        hosirekar_plane_build(
            self.job,
            &self.corners,
            &self.table.numbers,
            &self.table.marks,
            to.vertices,
            to.normals,
            to.uvs,
            to.indices,
        )
    }

    fn face(&self, number: usize, to: Lent) -> CAnswer {
        hosirekar_plane_face(
            self.job,
            &self.corners,
            &self.table.numbers,
            &self.table.marks,
            number,
            to.vertices,
            to.normals,
            to.uvs,
            to.indices,
        )
    }
}

impl Job for Column {
    fn plan(&self) -> CAnswer {
        let Table { numbers, marks } = &self.table;
        hosirekar_column_plan(self.job, &self.pairs, &self.corners, numbers, marks)
    }

    fn faces(&self) -> CFaces {
        hosirekar_column_faces(
            self.job,
            &self.pairs,
            &self.corners,
            &self.table.numbers,
            &self.table.marks,
        )
    }

    fn window(&self, number: usize) -> CWindow {
        hosirekar_column_window(
            self.job,
            &self.pairs,
            &self.corners,
            &self.table.numbers,
            &self.table.marks,
            number,
        )
    }

    fn build(&self, to: Lent) -> CAnswer {
        hosirekar_column_build(
            self.job,
            &self.pairs,
            &self.corners,
            &self.table.numbers,
            &self.table.marks,
            to.vertices,
            to.normals,
            to.uvs,
            to.indices,
        )
    }

    fn face(&self, number: usize, to: Lent) -> CAnswer {
        hosirekar_column_face(
            self.job,
            &self.pairs,
            &self.corners,
            &self.table.numbers,
            &self.table.marks,
            number,
            to.vertices,
            to.normals,
            to.uvs,
            to.indices,
        )
    }
}

impl Job for HeightMap {
    fn plan(&self) -> CAnswer {
        hosirekar_heightmap_plan(
            self.job,
            &self.cells,
            &self.neighbours,
            &self.fringe,
            &self.customs,
            &self.corners,
            &self.table.numbers,
            &self.table.marks,
        )
    }

    fn faces(&self) -> CFaces {
        hosirekar_heightmap_faces(
            self.job,
            &self.cells,
            &self.neighbours,
            &self.fringe,
            &self.customs,
            &self.corners,
            &self.table.numbers,
            &self.table.marks,
        )
    }

    fn window(&self, number: usize) -> CWindow {
        hosirekar_heightmap_window(
            self.job,
            &self.cells,
            &self.neighbours,
            &self.fringe,
            &self.customs,
            &self.corners,
            &self.table.numbers,
            &self.table.marks,
            number,
        )
    }

    fn build(&self, to: Lent) -> CAnswer {
        hosirekar_heightmap_build(
            self.job,
            &self.cells,
            &self.neighbours,
            &self.fringe,
            &self.customs,
            &self.corners,
            &self.table.numbers,
            &self.table.marks,
            to.vertices,
            to.normals,
            to.uvs,
            to.indices,
        )
    }

    fn face(&self, number: usize, to: Lent) -> CAnswer {
        hosirekar_heightmap_face(
            self.job,
            &self.cells,
            &self.neighbours,
            &self.fringe,
            &self.customs,
            &self.corners,
            &self.table.numbers,
            &self.table.marks,
            number,
            to.vertices,
            to.normals,
            to.uvs,
            to.indices,
        )
    }
}

/// What a map tells beyond what every job does.
impl HeightMap {
    pub fn why(&self, cell: usize, side: usize) -> CWhy {
        hosirekar_heightmap_why(
            self.job,
            &self.cells,
            &self.neighbours,
            &self.fringe,
            &self.customs,
            &self.corners,
            &self.table.numbers,
            &self.table.marks,
            cell,
            side,
        )
    }

    pub fn which(&self, number: usize) -> CWhich {
        hosirekar_heightmap_which(
            self.job,
            &self.cells,
            &self.neighbours,
            &self.fringe,
            &self.customs,
            &self.corners,
            &self.table.numbers,
            &self.table.marks,
            number,
        )
    }
}

impl Job for CheapColumn {
    fn plan(&self) -> CAnswer {
        hosirekar_cheap_column_plan(self.job, &self.corners)
    }

    fn faces(&self) -> CFaces {
        hosirekar_cheap_column_faces(self.job, &self.corners)
    }

    fn window(&self, number: usize) -> CWindow {
        hosirekar_cheap_column_window(self.job, &self.corners, number)
    }

    fn build(&self, to: Lent) -> CAnswer {
        hosirekar_cheap_column_build(
            self.job,
            &self.corners,
            to.vertices,
            to.normals,
            to.uvs,
            to.indices,
        )
    }

    fn face(&self, number: usize, to: Lent) -> CAnswer {
        hosirekar_cheap_column_face(
            self.job,
            &self.corners,
            number,
            to.vertices,
            to.normals,
            to.uvs,
            to.indices,
        )
    }
}

/// A call of a job.
#[derive(Clone, Copy, Debug, PartialEq)]
pub enum JobCall {
    Plan,
    Build,
    Face(usize),
}

pub fn call_job(job: &impl Job, call: JobCall, to: Lent) -> CAnswer {
    match call {
        JobCall::Plan => job.plan(),
        JobCall::Build => job.build(to),
        JobCall::Face(number) => job.face(number, to),
    }
}

/// Holds every call of a job of so many faces to the mesh that it should make.
pub fn hold_job(job: &impl Job, faces: usize, whole: &Mesh, what: impl Display) {
    let exact = whole.lengths();
    let counts = done(exact[0] / 3, exact[3]);
    assert_eq!(job.plan(), counts, "{what}: the plan");
    let fresh = Mesh::known(longer(exact));
    let wanted = fresh.clone().with_front(whole);
    for lengths in [exact, longer(exact)] {
        let mut made = fresh.clone();
        let answer = job.build(made.front(lengths));
        assert_eq!(answer, counts, "{what}: the build");
        made.hold(&wanted, format_args!("{what}: the build"));
        let mut made = fresh.clone();
        call_faces(job, faces, exact, lengths, &mut made, &what);
        made.hold(&wanted, format_args!("{what}: the faces"));
    }
    hold_refusals(job, faces, exact, &fresh, what);
}

/// Calls every face in an order of its own and half of them again, with refused calls between.
fn call_faces(
    job: &impl Job,
    faces: usize,
    exact: Lengths,
    lengths: Lengths,
    made: &mut Mesh,
    what: &impl Display,
) {
    let counts = done(exact[0] / 3, exact[3]);
    let step = stride(faces);
    for k in 0..faces + faces.div_ceil(2) {
        let face = (faces / 2 + k * step) % faces;
        let answer = job.face(face, made.front(lengths));
        assert_eq!(answer, counts, "{what}: face {face}");
        let answer = job.face(faces + k, made.front(lengths));
        assert_eq!(answer, refused(6), "{what}: no face");
        let list = k % 4;
        let short = shortened(lengths, exact, list);
        let (answer, wanted) = (
            job.face(face, made.front(short)),
            no_room(list, exact[list]),
        );
        assert_eq!(answer, wanted, "{what}: face {face}, lent {short:?}");
    }
}

/// A step by which each of so many faces is met once.
fn stride(faces: usize) -> usize {
    fn divisor(a: usize, b: usize) -> usize {
        if b == 0 {
            a
        } else {
            divisor(b, a % b)
        }
    }
    let mut steps = faces / 2 + 1..;
    steps.find(|step| divisor(*step, faces) == 1).unwrap_or(1)
}

/// Holds the calls that name no face, or that are lent one list one short, to their numbers.
fn hold_refusals(job: &impl Job, faces: usize, exact: Lengths, fresh: &Mesh, what: impl Display) {
    let mut made = fresh.clone();
    for number in [faces, usize::MAX] {
        let answer = job.face(number, made.front(exact));
        assert_eq!(answer, refused(6), "{what}: no face");
    }
    for list in not_empty(exact) {
        let wanted = no_room(list, exact[list]);
        for lengths in [exact, longer(exact)] {
            let short = shortened(lengths, exact, list);
            let answer = job.build(made.front(short));
            assert_eq!(answer, wanted, "{what}: the build, lent {short:?}");
            for number in [0, faces / 2, faces - 1] {
                let answer = job.face(number, made.front(short));
                assert_eq!(answer, wanted, "{what}: face {number}, lent {short:?}");
            }
            for number in [faces, usize::MAX] {
                let answer = job.face(number, made.front(short));
                assert_eq!(answer, refused(6), "{what}: no face, lent {short:?}");
            }
        }
    }
    made.hold(fresh, format_args!("{what}: the refused calls"));
}

/// Holds each face, called alone, to its own places. They lie end to end and are the whole mesh.
pub fn hold_faces(job: &impl Job, faces: usize, whole: &Mesh, what: impl Display) {
    let exact = whole.lengths();
    let fresh = Mesh::known(exact);
    hold_unlike(whole, &fresh, &what);
    let (mut vertex, mut index) = (0, 0);
    for face in 0..faces {
        let mut made = fresh.clone();
        job.face(face, made.front(exact));
        let past = written(&made.uvs, &fresh.uvs).div_ceil(2).max(vertex);
        let end = written(&made.indices, &fresh.indices).max(index);
        hold_face(job, face, whole, [vertex..past, index..end], &what);
        let told = places(&job.window(face));
        assert_eq!(told, [vertex..past, index..end], "{what}: window {face}");
        (vertex, index) = (past, end);
    }
    let all = (exact[0] / 3, exact[3]);
    assert_eq!((vertex, index), all, "{what}: the faces end to end");
    assert_eq!(job.faces().faces, faces, "{what}: how many faces");
}

/// The vertices and the indices of a window.
pub fn places(window: &CWindow) -> [Range<usize>; 2] {
    let (vertex, index) = (window.first_vertex, window.first_index);
    [
        vertex..vertex + window.vertices,
        index..index + window.indices,
    ]
}

/// Holds a face, called alone, to its places: its vertices and its indices.
pub fn hold_face(
    job: &impl Job,
    face: usize,
    whole: &Mesh,
    places: [Range<usize>; 2],
    what: impl Display,
) {
    let exact = whole.lengths();
    let fresh = Mesh::known(exact);
    let mut made = fresh.clone();
    let answer = job.face(face, made.front(exact));
    assert_eq!(answer, done(exact[0] / 3, exact[3]), "{what}: face {face}");
    let wanted = fresh.with_places(whole, places);
    made.hold(&wanted, format_args!("{what}: face {face} alone"));
}

/// How many places there are up to the last that has changed.
fn written<T: PartialEq>(made: &[T], fresh: &[T]) -> usize {
    let changed = (0..made.len()).rfind(|place| made[*place] != fresh[*place]);
    changed.map_or(0, |place| place + 1)
}

/// Holds a mesh to have no number where it stands already, or writing it would not show.
pub fn hold_unlike(whole: &Mesh, fresh: &Mesh, what: &impl Display) {
    let floats = [
        (&whole.vertices, &fresh.vertices),
        (&whole.normals, &fresh.normals),
        (&whole.uvs, &fresh.uvs),
    ];
    let alike = floats
        .iter()
        .any(|(a, b)| a.iter().zip(*b).any(|(x, y)| x == y));
    let alike = alike
        || whole
            .indices
            .iter()
            .zip(&fresh.indices)
            .any(|(x, y)| x == y);
    assert!(!alike, "{what}: a number stands there already");
}
