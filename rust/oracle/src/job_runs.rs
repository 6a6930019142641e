//! The calls that `replay` and `replay_maps` make of a job, what each answers, and
//! what is in the lists in the end. A mesh is hexx's; the number of a refusal
//! is that of the scope's table.

use crate::answers::{HexagonCase, QuadCase, When, hexagon, quad};
use crate::builders::{Column, Plane};
use crate::digest::{Digest, Lists};
use crate::job_words::{Job, Lines, Words};
use crate::mesh_cases::Column as CheapColumn;
use crate::room::{self, first_short, lengths};
use crate::{FaceOptions, MeshInfo};
use glam::Vec2;

/// What each of them has room for: numbers and indices of a list, runs of a
/// case, calls of a run.
const FLOATS: usize = 800;
/// See [`FLOATS`].
const INDICES: usize = 1000;
/// See [`FLOATS`].
const RUNS: usize = 16;
/// See [`FLOATS`].
const CALLS: usize = 64;

/// A call of a job.
#[derive(Debug, Clone, Copy)]
pub enum Call {
    Plan,
    Whole,
    Face(usize),
}

/// Why a plan is refused.
#[derive(Debug, Clone, Copy, PartialEq, Eq)]
pub enum Fault {
    Shape = 1,
    Range = 2,
    Neighbour = 3,
    Limit = 4,
}

/// A job and what it should come to.
#[derive(Debug, Clone)]
pub struct Case<J = Job> {
    pub job: J,
    pub fault: Option<Fault>,
    /// The vertex count and the index count of each face.
    pub faces: Vec<[usize; 2]>,
    mesh: Lists,
}

impl From<&CheapColumn> for Case {
    fn from(case: &CheapColumn) -> Self {
        let mesh = case.hexx();
        Self::done(case.into(), vec![counts(&mesh)], &mesh)
    }
}

impl Case {
    /// A plane, whose mesh is hexx's or that of the written steps.
    #[must_use]
    pub fn plane(case: &Plane, mesh: &MeshInfo) -> Self {
        Self::done(case.into(), vec![counts(mesh)], mesh)
    }

    /// A column, whose mesh is hexx's or that of the written steps.
    #[must_use]
    pub fn column(case: &Column, mesh: &MeshInfo) -> Self {
        Self::done(case.into(), faces(case), mesh)
    }
}

impl<J: Words> Case<J> {
    /// A job that is done, with the counts of its faces and its mesh.
    #[must_use]
    pub fn done(job: J, faces: Vec<[usize; 2]>, mesh: &MeshInfo) -> Self {
        let case = Self {
            job,
            fault: None,
            faces,
            mesh: Lists::of(mesh),
        };
        assert_eq!(case.start(case.faces.len()), counts(mesh));
        case
    }

    /// A job that is refused, whatever the call.
    #[must_use]
    pub fn refused(job: J, fault: Fault) -> Self {
        Self {
            job,
            fault: Some(fault),
            faces: Vec::new(),
            mesh: Lists::kept([0; 4]),
        }
    }

    /// What stands before a face: the sums of the faces before it.
    fn start(&self, face: usize) -> [usize; 2] {
        let sum = |sum: [usize; 2], face: &[usize; 2]| [sum[0] + face[0], sum[1] + face[1]];
        self.faces[..face].iter().fold([0; 2], sum)
    }

    /// What a call answers: its number, both counts and the need.
    fn answer(&self, call: Call, lent: [usize; 4]) -> [usize; 4] {
        if let Some(fault) = self.fault {
            return [fault as usize, 0, 0, 0];
        }
        let [vertices, indices] = self.start(self.faces.len());
        let done = [0, vertices, indices, 0];
        match call {
            Call::Plan => done,
            Call::Face(face) if face >= self.faces.len() => [6, 0, 0, 0],
            Call::Whole | Call::Face(_) => first_short(lent, self.exact()).map_or(done, |list| {
                [room::number(list) as usize, 0, 0, self.exact()[list]]
            }),
        }
    }

    /// What a mesh needs of each list.
    #[must_use]
    pub fn exact(&self) -> [usize; 4] {
        lengths(self.start(self.faces.len()))
    }

    /// Lists that are longer than needed.
    #[must_use]
    pub fn longer(&self) -> [usize; 4] {
        let exact = self.exact();
        [exact[0] + 7, exact[1] + 5, exact[2] + 4, exact[3] + 3]
    }

    /// Lists of which these are one too short, if they can be.
    #[must_use]
    pub fn short(&self, lists: &[usize]) -> Option<[usize; 4]> {
        let mut lengths = self.longer();
        for &list in lists {
            lengths[list] = self.exact()[list].checked_sub(1)?;
        }
        Some(lengths)
    }

    /// The words of a run: how much is lent, the calls, each with its answer,
    /// and the digest of what is lent in the end.
    #[must_use]
    pub fn run(&self, lengths: [usize; 4], calls: &[Call]) -> Vec<u32> {
        assert!(lengths[..3].iter().all(|&length| length <= FLOATS));
        assert!(lengths[3] <= INDICES && calls.len() <= CALLS);
        let mut lists = Lists::kept(lengths);
        let mut words: Vec<usize> = lengths.to_vec();
        words.push(calls.len());
        for &call in calls {
            let answer = self.answer(call, lengths);
            words.push(call.word());
            words.extend(answer);
            if answer[0] == 0 {
                self.lay(call, &mut lists);
            }
        }
        let mut digest = Digest::default();
        digest.lists(&lists);
        let words = words.into_iter().map(|word| word as u32);
        words.chain(digest.words()).collect()
    }

    /// Writes what a call that is done writes.
    fn lay(&self, call: Call, lists: &mut Lists) {
        let [from, to] = match call {
            Call::Plan => return,
            Call::Whole => [0, self.faces.len()],
            Call::Face(face) => [face, face + 1],
        };
        assert!(self.mesh.tells(), "a place may seem to be as it was");
        lists.lay(
            &self.mesh,
            lengths(self.start(from)),
            lengths(self.start(to)),
        );
    }

    /// The lines of a case: the job, the count of its runs, and each run.
    #[must_use]
    pub fn lines(&self, runs: Lines) -> Lines {
        assert!(runs.len() <= RUNS);
        let mut lines = self.job.lines();
        lines.push(vec![runs.len() as u32]);
        lines.extend(runs);
        lines
    }

    /// The runs of a job that is done, the `at`th of its kind: the plan and the
    /// whole; all faces in another order, one of them twice, with one that is
    /// not there among them; one face alone; and all calls with a short list.
    #[must_use]
    pub fn runs(&self, at: usize) -> Lines {
        let count = self.faces.len();
        let mut order: Vec<Call> = (0..count)
            .map(|face| Call::Face((1009 * face + 3) % count))
            .collect();
        order.insert(count.min(1), Call::Face(count));
        order.extend(order.first().copied());
        let lent = match at % 2 {
            0 => self.longer(),
            _ => self.exact(),
        };
        let mut runs = vec![
            self.run(self.longer(), &[Call::Plan, Call::Whole]),
            self.run(lent, &order),
        ];
        if count > 1 {
            let alone = [Call::Face(count / 2), Call::Face(count)];
            runs.push(self.run(self.longer(), &alone));
        }
        if let Some(short) = self.short(&[at % 4]) {
            runs.push(self.run(short, &self.every_call()));
        }
        runs
    }

    /// A call of each sort, and one of a face that is not there.
    #[must_use]
    pub fn every_call(&self) -> [Call; 4] {
        let count = self.faces.len();
        [
            Call::Plan,
            Call::Whole,
            Call::Face(count / 2),
            Call::Face(count),
        ]
    }
}

impl Call {
    fn word(self) -> usize {
        match self {
            Self::Plan => 1_000_000,
            Self::Whole => 1_000_001,
            Self::Face(face) => face,
        }
    }
}

fn counts(mesh: &MeshInfo) -> [usize; 2] {
    [mesh.vertices.len(), mesh.indices.len()]
}

/// The counts of each face of a column, in order.
fn faces(case: &Column) -> Vec<[usize; 2]> {
    let mut all = Vec::new();
    for (sides, side) in case.ends.into_iter().zip(case.sides) {
        let part = side
            .options(&case.options)
            .map(|options| part(sides, options));
        all.extend(
            part.into_iter()
                .flat_map(|part| vec![part; case.parts() as usize]),
        );
    }
    for cap in [case.top, case.bottom] {
        let corners = case.corners;
        let when = When::After;
        all.extend(cap.options(&case.options).map(|options| {
            counts(&hexagon(&HexagonCase {
                corners,
                options,
                when,
            }))
        }));
    }
    all
}

fn part(sides: [Vec2; 2], options: FaceOptions) -> [usize; 2] {
    counts(&quad(&QuadCase {
        sides,
        heights: [0.0, 1.0],
        range: None,
        options,
        when: When::Before,
    }))
}
