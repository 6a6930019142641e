//! The safe crate's own calls on a job, held to the mesh and the faces that it
//! should have.

use crate::MeshInfo;
use crate::buffers::{Buffers, Counts};
use crate::compare::{Trial, hold, hold_buffers};
use crate::limits::VERTICES;
use crate::safe::{lent, lists};
use hosirekar::{self as safe, Buffer, Job, Mesh, OutOfRange, Refusal, Window};

/// The answer of a call that is done.
fn done(counts: Counts) -> Result<safe::Counts, Refusal> {
    Ok(safe::Counts {
        vertices: counts.vertices,
        indices: counts.indices,
    })
}

/// Its lists are as long as those of `wanted` and hold the same numbers.
fn hold_mesh(what: &str, is: Mesh, wanted: &MeshInfo) -> Result<(), String> {
    let counts = Counts::of(wanted);
    let mut all = Buffers::marked(counts.lengths());
    all.lay(wanted, Counts::default(), counts);
    let is = lists(is);
    hold(what, is.lengths(), counts.lengths())?;
    hold_buffers(what, &is, &all)
}

/// Its build has exactly the mesh's numbers.
pub fn whole(job: &impl Job, mesh: &MeshInfo) -> Result<(), String> {
    let built = job.build().map_err(|no| no.to_string())?;
    hold_mesh("safe build", built, mesh)
}

/// What is told of a job, and the windows of these of its faces; the same
/// faces one by one; the job into no room; and the job put behind itself.
pub fn parts(job: &impl Job, trial: &Trial, faces: &[usize]) -> Result<(), String> {
    told(job, trial, faces)?;
    one_by_one(job, trial, faces)?;
    into_nothing(job, &trial.mesh)?;
    behind_itself(job, &trial.mesh)
}

fn told(job: &impl Job, trial: &Trial, faces: &[usize]) -> Result<(), String> {
    let count = trial.faces();
    hold("safe plan", job.plan(), done(Counts::of(&trial.mesh)))?;
    hold("safe faces", job.faces(), Ok(count))?;
    let none = [count, count + 1, count + 65_536, usize::MAX];
    for &face in faces.iter().chain(&none) {
        let what = format!("safe window {face}");
        hold(&what, job.window(face), window(trial, face))?;
    }
    Ok(())
}

/// The places of a face, if there is one of that number.
fn window(trial: &Trial, face: usize) -> Result<Window, Refusal> {
    match &trial.starts.get(face..).unwrap_or_default() {
        [from, to, ..] => Ok(Window {
            vertices: from.vertices..to.vertices,
            indices: from.indices..to.indices,
        }),
        _ => Err(Refusal::NoFace),
    }
}

/// These faces in this order on lists of exactly the mesh's lengths.
fn one_by_one(job: &impl Job, trial: &Trial, faces: &[usize]) -> Result<(), String> {
    let counts = Counts::of(&trial.mesh);
    let mut wanted = Buffers::marked(counts.lengths());
    let mut buffers = wanted.clone();
    for &face in faces {
        let answer = job.build_face(face, &mut lent(&mut buffers));
        hold("safe face", answer, done(counts))?;
        wanted.lay(&trial.mesh, trial.starts[face], trial.starts[face + 1]);
    }
    let none = job.build_face(trial.faces(), &mut lent(&mut buffers));
    hold("safe face that is not there", none, Err(Refusal::NoFace))?;
    hold_buffers("safe faces", &buffers, &wanted)
}

/// Into empty lists: refused for the vertices, if there are any.
fn into_nothing(job: &impl Job, mesh: &MeshInfo) -> Result<(), String> {
    let counts = Counts::of(mesh);
    let buffer = Buffer::Vertices;
    let wanted = match counts.lengths()[0] {
        0 => done(counts),
        need => Err(Refusal::Room { buffer, need }),
    };
    let answer = job.build_into(&mut Mesh::default().buffers());
    hold("safe build into nothing", answer, wanted)
}

/// Added twice, as hexx merges a mesh; refused where there are too many
/// vertices, with the first left as it is.
fn behind_itself(job: &impl Job, mesh: &MeshInfo) -> Result<(), String> {
    let mut twice = Mesh::default();
    hold("safe add", twice.add(job), done(Counts::of(mesh)))?;
    let again = twice.add(job);
    let mut wanted = mesh.clone();
    if 2 * mesh.vertices.len() > VERTICES {
        hold("safe add beyond the limit", again, Err(Refusal::Limit))?;
    } else {
        wanted.merge_with(mesh.clone());
        hold("safe add again", again, done(Counts::of(&wanted)))?;
    }
    hold_mesh("safe add", twice, &wanted)
}

/// Where it is refused for a number, that one is named and is out of range.
fn named(why: Refusal) -> Result<(), String> {
    let Refusal::Range(stray) = why else {
        return Ok(());
    };
    let lawful = stray.value().abs() <= 1e6;
    hold("safe range", lawful || stray == OutOfRange::UNKNOWN, false)
}

/// Refused with this number, whatever is asked for, and each time for the same
/// reason.
pub fn refused(job: &impl Job, number: u32) -> Result<(), String> {
    let why = job.plan().err().ok_or("the plan is not refused")?;
    hold("safe number", why.number(), number)?;
    named(why)?;
    let untouched = Buffers::marked([66, 66, 44, 64]);
    let mut buffers = untouched.clone();
    hold("safe build", job.build().map(drop), Err(why))?;
    hold("safe add", Mesh::default().add(job), Err(why))?;
    hold("safe faces", job.faces(), Err(why))?;
    for face in [0, 65_536, usize::MAX] {
        hold("safe window", job.window(face), Err(why))?;
        let answer = job.build_face(face, &mut lent(&mut buffers));
        hold("safe face", answer, Err(why))?;
    }
    hold_buffers("safe face", &buffers, &untouched)
}
