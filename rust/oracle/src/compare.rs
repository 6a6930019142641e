//! Holds the answers of our own code to those wanted: a plan, a whole build, single
//! faces in any order with refused calls between them, and short buffers.

use crate::MeshInfo;
use crate::buffers::{Buffers, Counts};
use crate::ours::{Call, Job};
use crate::random::Random;
use crate::room;
use crate::safe::Safe;
use crate::safe_calls;
use hosirekar_sys::CAnswer;

/// How many were tried and how many differ, and what the first one shows.
#[derive(Debug, Default)]
pub struct Tally {
    pub tried: u64,
    pub differ: u64,
    pub first: Option<String>,
}

impl Tally {
    /// Of nothing.
    pub const NONE: Self = Self {
        tried: 0,
        differ: 0,
        first: None,
    };

    /// Counts one in.
    pub fn add(&mut self, found: Result<(), String>) {
        self.tried += 1;
        if let Err(what) = found {
            self.differ += 1;
            self.first.get_or_insert(what);
        }
    }
}

/// The answer of a call that is done.
#[must_use]
pub fn done(counts: Counts) -> CAnswer {
    CAnswer {
        vertices: counts.vertices,
        indices: counts.indices,
        ..CAnswer::default()
    }
}

/// The answer of a call that is refused.
#[must_use]
pub fn refused(number: u32) -> CAnswer {
    CAnswer {
        number,
        ..CAnswer::default()
    }
}

/// The answer of a call that is refused for a list of which so much is needed.
#[must_use]
pub fn no_room(list: usize, need: usize) -> CAnswer {
    CAnswer {
        need,
        ..refused(room::number(list))
    }
}

/// Nothing, or what differs.
pub fn hold<T: PartialEq + std::fmt::Debug>(what: &str, is: T, wanted: T) -> Result<(), String> {
    match is == wanted {
        true => Ok(()),
        false => Err(format!("{what}: {is:?}, not {wanted:?}")),
    }
}

/// Nothing, or where two sets of buffers differ.
pub fn hold_buffers(what: &str, is: &Buffers, wanted: &Buffers) -> Result<(), String> {
    match is.difference(wanted) {
        None => Ok(()),
        Some(place) => Err(format!("{what}: {place}")),
    }
}

/// A job on trial, with the mesh that it should have.
pub struct Trial {
    pub call: Call,
    pub mesh: MeshInfo,
    /// Where each face begins, and where the last one ends.
    pub starts: Vec<Counts>,
    /// The lengths of the buffers that are lent, some longer than the mesh.
    pub lengths: [usize; 4],
}

impl Trial {
    /// Lends up to seven places more than needed in each list.
    #[must_use]
    pub fn new(job: &impl Job, random: &mut Random) -> Self {
        let mut starts = vec![Counts::default()];
        let mut end = Counts::default();
        for face in job.face_counts() {
            end = end.plus(face);
            starts.push(end);
        }
        let mesh = job.wanted();
        let lengths = Counts::of(&mesh).lengths();
        Self {
            call: job.call(),
            mesh,
            starts,
            lengths: lengths.map(|length| length + random.below(8) as usize),
        }
    }

    /// How many faces there are.
    #[must_use]
    pub fn faces(&self) -> usize {
        self.starts.len() - 1
    }

    /// One of them; there must be one.
    pub fn some_face(&self, random: &mut Random) -> usize {
        random.below(self.faces() as u32) as usize
    }

    fn counts(&self) -> Counts {
        Counts::of(&self.mesh)
    }

    /// The plan has the mesh's counts, which are the sums over the faces.
    pub fn plan(&self) -> Result<(), String> {
        let counts = self.counts();
        hold("sums", self.starts[self.faces()], counts)?;
        hold("plan", self.call.plan(), done(counts))
    }

    /// All that is asked of the calls of one job.
    pub fn all(&self, random: &mut Random) -> Result<(), String> {
        self.plan()
            .and_then(|()| self.whole())
            .and_then(|()| self.short(random))
            .and_then(|()| self.by_faces(true, random))
    }

    /// A whole build has the mesh's numbers, and leaves all other places.
    pub fn whole(&self) -> Result<(), String> {
        let mut wanted = Buffers::marked(self.lengths);
        let mut buffers = wanted.clone();
        wanted.lay(&self.mesh, Counts::default(), self.counts());
        hold(
            "build",
            self.call.build(buffers.lent()),
            done(self.counts()),
        )?;
        hold_buffers("build", &buffers, &wanted)
    }

    /// Where a list is one short, by itself or with all later ones empty, a
    /// build and a face call are refused for it.
    pub fn short(&self, random: &mut Random) -> Result<(), String> {
        let exact = self.counts().lengths();
        let untouched = Buffers::marked(exact);
        let mut buffers = untouched.clone();
        for list in (0..4).filter(|&list| exact[list] > 0) {
            let wanted = no_room(list, exact[list]);
            let some = self.some_face(random);
            for lengths in short_of(exact, [0; 4], list) {
                let build = self.call.build(buffers.cut(lengths));
                hold("short build", build, wanted)?;
                let face = self.call.face(some, buffers.cut(lengths));
                hold("short face", face, wanted)?;
                let none = self.call.face(self.faces(), buffers.cut(lengths));
                hold("short face that is not there", none, refused(6))?;
            }
        }
        hold_buffers("short", &buffers, &untouched)
    }

    /// All faces in some order, some of them again, with refused calls between;
    /// where it is `watched`, every place is looked at after every call.
    pub fn by_faces(&self, watched: bool, random: &mut Random) -> Result<(), String> {
        let order = order(self.faces(), random);
        self.in_order(&order, watched, 2, random)
    }

    /// The same of these faces alone, with a refused call before one of `each`.
    pub fn in_order(
        &self,
        order: &[usize],
        watched: bool,
        each: u32,
        random: &mut Random,
    ) -> Result<(), String> {
        let mut wanted = Buffers::marked(self.lengths);
        let mut buffers = wanted.clone();
        for &face in order {
            if random.once_in(each) {
                self.refused(&mut buffers, random)?;
            }
            let answer = self.call.face(face, buffers.lent());
            hold("face", answer, done(self.counts()))?;
            wanted.lay(&self.mesh, self.starts[face], self.starts[face + 1]);
            if watched {
                hold_buffers("face", &buffers, &wanted)?;
            }
        }
        self.refused(&mut buffers, random)?;
        hold_buffers("faces", &buffers, &wanted)
    }

    /// One call that must be refused, on the buffers that are being filled.
    fn refused(&self, buffers: &mut Buffers, random: &mut Random) -> Result<(), String> {
        let faces = self.faces();
        let none = random.pick(&[faces, faces + 1, faces + 65_536, usize::MAX]);
        if random.once_in(2) {
            let answer = self.call.face(none, buffers.lent());
            return hold("face that is not there", answer, refused(6));
        }
        let (number, call) = self.call.faulty(random);
        hold("faulty plan", call.plan(), refused(number))?;
        let answer = match random.once_in(2) {
            true => call.build(buffers.lent()),
            false => call.face(none, buffers.lent()),
        };
        hold("faulty call", answer, refused(number))
    }
}

/// A list one short, with the others exact, and with all later ones at their
/// least.
#[must_use]
pub fn short_of(exact: [usize; 4], least: [usize; 4], list: usize) -> [[usize; 4]; 2] {
    let mut alone = exact;
    alone[list] -= 1;
    let mut first = alone;
    first[list + 1..].copy_from_slice(&least[list + 1..]);
    [alone, first]
}

/// Every number below `count` once, and some twice, in any order.
pub fn order(count: usize, random: &mut Random) -> Vec<usize> {
    let mut order: Vec<usize> = (0..count).collect();
    order.extend((0..count).filter(|_| random.once_in(3)));
    for at in (1..order.len()).rev() {
        order.swap(at, random.below(at as u32 + 1) as usize);
    }
    order
}

/// All that is asked of one job.
pub fn job(job: &(impl Job + Safe), random: &mut Random) -> Result<(), String> {
    let trial = Trial::new(job, random);
    let safe = job.safe();
    let backwards: Vec<usize> = (0..trial.faces()).rev().collect();
    let all = safe_calls::whole(&safe, &trial.mesh)
        .and_then(|()| safe_calls::parts(&safe, &trial, &backwards))
        .and_then(|()| trial.all(random));
    all.map_err(|what| format!("{what}\n{job:?}"))
}
