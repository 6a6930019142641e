//! Where hexx panics, wraps or answers what we refuse: each row of
//! docs/DIFFERENCES.md that can be run, at its smallest input, on both sides.

use crate::builder_cases::ends_of;
use crate::builders::{Choice, Column, Standing};
use crate::compare::{Tally, hold};
use crate::map_differences;
use crate::safe::Safe;
use crate::shapes::regular_hexagons;
use crate::{MeshInfo, builders::Plane};
use glam::{Vec2, Vec3, vec2};
use hosirekar::{Job, Mesh, Refusal};
use std::panic::{AssertUnwindSafe, catch_unwind, set_hook, take_hook};

/// The next number above 1,000,000.
pub const TOO_GREAT: f32 = 1_000_000.0_f32.next_up();

/// All rows, panics kept quiet.
#[must_use]
pub fn all() -> Tally {
    let rows: [fn() -> Result<(), String>; 9] = [
        a_merge_wraps,
        a_column_wraps,
        a_column_panics,
        a_merge_panics,
        nothing_is_merged,
        an_index_names_nothing,
        there_is_no_middle,
        a_parameter_is_too_great,
        a_corner_is_too_great,
    ];
    let hook = take_hook();
    set_hook(Box::new(|_| ()));
    let mut tally = Tally::default();
    let rows = rows.iter().chain(&map_differences::ROWS);
    rows.for_each(|row| tally.add(row()));
    set_hook(hook);
    tally
}

/// hexx's answer, or that it panicked.
pub(crate) fn hexx(mut ask: impl FnMut() -> MeshInfo) -> Option<MeshInfo> {
    catch_unwind(AssertUnwindSafe(&mut ask)).ok()
}

/// What a sum past 16 bits does: a build without checks wraps.
pub(crate) fn wraps(answer: Option<MeshInfo>, end: &[u16]) -> Result<(), String> {
    if cfg!(debug_assertions) {
        return hold("hexx panics", answer.is_none(), true);
    }
    let indices = answer.ok_or("hexx panicked")?.indices;
    hold("hexx wraps", indices.ends_with(end), true)
}

/// So many vertices, with the indices given.
fn mesh(vertices: usize, indices: &[u16]) -> MeshInfo {
    MeshInfo {
        vertices: vec![Vec3::ZERO; vertices],
        normals: vec![Vec3::Y; vertices],
        uvs: vec![Vec2::ZERO; vertices],
        indices: indices.to_vec(),
    }
}

fn ours(mesh: &MeshInfo) -> Mesh {
    Mesh {
        vertices: mesh.vertices.iter().map(Vec3::to_array).collect(),
        normals: mesh.normals.iter().map(Vec3::to_array).collect(),
        uvs: mesh.uvs.iter().map(Vec2::to_array).collect(),
        indices: mesh.indices.clone(),
    }
}

/// hexx's merge of a source into a target, or that it panicked.
fn merged(target: &MeshInfo, source: &MeshInfo) -> Option<MeshInfo> {
    hexx(|| {
        let mut whole = target.clone();
        whole.merge_with(source.clone());
        whole
    })
}

/// Our merge is refused, and the target stays.
fn refused(target: &MeshInfo, source: &MeshInfo, why: Refusal) -> Result<(), String> {
    let mut whole = ours(target);
    hold("merge", whole.merge_with(&ours(source)), Err(why))?;
    hold("target", whole == ours(target), true)
}

fn a_merge_wraps() -> Result<(), String> {
    let (target, source) = (mesh(65_535, &[]), mesh(2, &[0, 1, 1]));
    wraps(merged(&target, &source), &[65_535, 0, 0])?;
    refused(&target, &source, Refusal::Limit)
}

fn a_merge_panics() -> Result<(), String> {
    let (target, source) = (mesh(65_536, &[]), mesh(1, &[]));
    hold("hexx panics", merged(&target, &source).is_none(), true)?;
    refused(&target, &source, Refusal::Limit)
}

fn nothing_is_merged() -> Result<(), String> {
    let (target, source) = (mesh(65_536, &[]), mesh(0, &[]));
    hold("hexx panics", merged(&target, &source).is_none(), true)?;
    let mut whole = ours(&target);
    hold("merge", whole.merge_with(&ours(&source)).is_ok(), true)?;
    hold("target", whole == ours(&target), true)
}

fn an_index_names_nothing() -> Result<(), String> {
    let (target, source) = (mesh(1, &[]), mesh(1, &[1]));
    let taken = merged(&target, &source).ok_or("hexx panicked")?;
    hold("hexx takes it", taken.indices, vec![2])?;
    refused(&target, &source, Refusal::Index)
}

fn there_is_no_middle() -> Result<(), String> {
    let none = mesh(0, &[]);
    hold("hexx's middle", none.centroid().is_nan(), true)?;
    hold("hexx's middle", none.uv_centroid().is_nan(), true)?;
    hold("middle", ours(&none).centroid(), Err(Refusal::Empty))?;
    hold("middle", ours(&none).uv_centroid(), Err(Refusal::Empty))
}

/// Refused for the number of that name.
fn hold_range<T>(what: &str, answer: Result<T, Refusal>, name: &str) -> Result<(), String> {
    let words = format!("{name} is {TOO_GREAT}: ");
    match answer {
        Err(why) if why.number() == 2 => hold(what, why.to_string().starts_with(&words), true),
        answer => Err(format!("{what}: {:?}", answer.err())),
    }
}

fn a_parameter_is_too_great() -> Result<(), String> {
    let by = Vec3::new(1.0, 1.0, TOO_GREAT);
    let one = mesh(1, &[]).with_offset(Vec3::ONE);
    let grown = one.clone().with_scale(by).vertices[0];
    hold("hexx takes it", grown, by)?;
    let mut stays = ours(&one);
    hold_range("scale", stays.scale(by.to_array()), "scale[2]")?;
    hold("mesh", stays == ours(&one), true)
}

fn standing(position: Vec2) -> Standing {
    Standing {
        position,
        centred: false,
        scale: None,
        turn: None,
        offset: None,
    }
}

fn a_corner_is_too_great() -> Result<(), String> {
    let plane = Plane {
        corners: regular_hexagons()[0],
        choice: Choice::Default,
        options: Vec::new(),
        standing: standing(vec2(TOO_GREAT, 0.0)),
    };
    hold("hexx takes it", plane.hexx().vertices.len(), 6)?;
    hold_range("plan", plane.safe().plan(), "position[0]")?;
    hold_range("build", plane.safe().build(), "position[0]")
}

/// The first sides with so many parts, and a plain top or none.
fn column(sides: usize, parts: u32, top: Choice) -> Column {
    let corners = regular_hexagons()[0];
    Column {
        ends: ends_of(corners),
        corners,
        height: 1.0,
        subdivisions: Some(parts),
        sides: std::array::from_fn(|side| match side < sides {
            true => Choice::Default,
            false => Choice::Absent,
        }),
        top,
        bottom: Choice::Absent,
        options: Vec::new(),
        standing: standing(Vec2::ZERO),
    }
}

/// The last cap is tied to vertices 0 and 1.
fn a_column_wraps() -> Result<(), String> {
    let job = column(3, 5461, Choice::Default);
    let [a, b, c, d] = [65_532, 65_533, 65_534, 65_535];
    let cap = [a, c, b, d, 1, 0, a, 1, d, d, c, a];
    wraps(hexx(|| job.hexx()), &cap)?;
    hold("plan", job.safe().plan(), Err(Refusal::Limit))?;
    hold("build", job.safe().build(), Err(Refusal::Limit))
}

fn a_column_panics() -> Result<(), String> {
    let job = column(1, 16_385, Choice::Absent);
    hold("hexx panics", hexx(|| job.hexx()).is_none(), true)?;
    hold("plan", job.safe().plan(), Err(Refusal::Limit))?;
    hold("build", job.safe().build(), Err(Refusal::Limit))
}
