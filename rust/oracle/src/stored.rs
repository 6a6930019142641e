//! Holds what our own code does to stored meshes, and merges, to hexx's.

use crate::MeshInfo;
use crate::buffers::{Buffers, Counts, Lent};
use crate::compare::{done, hold, hold_buffers, no_room, refused, short_of};
use crate::line::bits;
use crate::mesh_cases::Merge;
use crate::ours::{BEYOND, vec3};
use crate::random::Random;
use glam::{Vec2, Vec3};
use hosirekar_sys::{self as sys, CAnswer, CCounts};

/// What is done to all positions or all uvs of a stored mesh.
#[derive(Debug, Clone, Copy)]
pub enum Change {
    Scale(Vec3),
    Offset(Vec3),
    TextureScale(Vec2),
}

impl Change {
    /// hexx's own.
    fn hexx(self, mesh: MeshInfo) -> MeshInfo {
        match self {
            Self::Scale(by) => mesh.with_scale(by),
            Self::Offset(by) => mesh.with_offset(by),
            Self::TextureScale(by) => mesh.with_uv_scale(by),
        }
    }

    fn ours(self, counts: Counts, to: Lent) -> CAnswer {
        let (v, n, u, i) = (to.vertices, to.normals, to.uvs, to.indices);
        let counts = given(counts);
        match self {
            Self::Scale(by) => sys::hosirekar_scale(counts, vec3(by), v, n, u, i),
            Self::Offset(by) => sys::hosirekar_offset(counts, vec3(by), v, n, u, i),
            Self::TextureScale(by) => {
                let by = sys::CVec2 { x: by.x, y: by.y };
                sys::hosirekar_texture_scale(counts, by, v, n, u, i)
            }
        }
    }

    /// The same with a parameter that is out of range.
    fn beyond(self, random: &mut Random) -> Self {
        let beyond = random.pick(&BEYOND);
        let at = random.below(3) as usize;
        let three = |mut by: Vec3| {
            by[at] = beyond;
            by
        };
        match self {
            Self::Scale(by) => Self::Scale(three(by)),
            Self::Offset(by) => Self::Offset(three(by)),
            Self::TextureScale(mut by) => {
                by[at % 2] = beyond;
                Self::TextureScale(by)
            }
        }
    }
}

fn given(counts: Counts) -> CCounts {
    CCounts {
        vertices: counts.vertices,
        indices: counts.indices,
    }
}

/// Buffers that hold `mesh` and up to seven places more in each list.
fn holding(mesh: &MeshInfo, room: Counts, random: &mut Random) -> Buffers {
    let more = |length: usize| length + random.below(8) as usize;
    let mut buffers = Buffers::marked(room.lengths().map(more));
    buffers.lay(mesh, Counts::default(), Counts::of(mesh));
    buffers
}

/// Where each list in turn is one shorter than `counts` need.
fn one_short(counts: Counts) -> impl Iterator<Item = [usize; 4]> {
    let exact = counts.lengths();
    (0..4)
        .filter(move |&list| exact[list] > 0)
        .map(move |list| short_of(exact, [0; 4], list)[0])
}

/// Scale, offset and texture scale.
pub fn change(change: Change, mesh: &MeshInfo, random: &mut Random) -> Result<(), String> {
    let counts = Counts::of(mesh);
    let mut buffers = holding(mesh, counts, random);
    let mut wanted = buffers.clone();
    for lengths in one_short(counts) {
        let short = change.ours(counts, buffers.cut(lengths));
        hold("short list", short, refused(1))?;
    }
    let beyond = change.beyond(random).ours(counts, buffers.lent());
    hold("out of range", beyond, refused(2))?;
    hold_buffers("refused", &buffers, &wanted)?;
    let changed = change.hexx(mesh.clone());
    wanted.lay(&changed, Counts::default(), counts);
    let answer = change.ours(counts, buffers.lent());
    hold("change", answer, done(counts))?;
    hold_buffers("change", &buffers, &wanted).map_err(|what| format!("{what}\n{change:?} {mesh:?}"))
}

/// Both centroids.
pub fn centroids(mesh: &MeshInfo, random: &mut Random) -> Result<(), String> {
    let counts = Counts::of(mesh);
    let Buffers {
        vertices,
        normals,
        uvs,
        indices,
    } = holding(mesh, counts, random);
    let middle = sys::hosirekar_centroid(given(counts), &vertices, &normals, &uvs, &indices);
    hold("centroid", middle.answer, done(counts))?;
    let sys::CVec3 { x, y, z } = middle.centroid;
    let own = mesh.centroid().to_array().map(bits);
    hold("centroid", [x, y, z].map(bits), own)?;
    let middle = sys::hosirekar_uv_centroid(given(counts), &vertices, &normals, &uvs, &indices);
    hold("uv centroid", middle.answer, done(counts))?;
    let sys::CVec2 { x, y } = middle.centroid;
    let own = mesh.uv_centroid().to_array().map(bits);
    hold("uv centroid", [x, y].map(bits), own)
}

fn merge_ours(source: &MeshInfo, from: &Buffers, target: &MeshInfo, to: Lent) -> CAnswer {
    sys::hosirekar_merge(
        given(Counts::of(source)),
        &from.vertices,
        &from.normals,
        &from.uvs,
        &from.indices,
        given(Counts::of(target)),
        to.vertices,
        to.normals,
        to.uvs,
        to.indices,
    )
}

/// Each list of the target one short of the need, by itself and with all later
/// ones as short as the target.
fn short_merges(case: &Merge, from: &Buffers, buffers: &mut Buffers) -> Result<(), String> {
    let Merge { source, target } = case;
    let own = Counts::of(target).lengths();
    let need = Counts::of(target).plus(Counts::of(source)).lengths();
    for list in (0..4).filter(|&list| need[list] > 0) {
        let wanted = match own[list] < need[list] {
            true => no_room(list, need[list]),
            false => refused(1),
        };
        for lengths in short_of(need, own, list) {
            let short = merge_ours(source, from, target, buffers.cut(lengths));
            hold("short merge", short, wanted)?;
        }
    }
    Ok(())
}

/// A merge, also with short lists, and with an index of the source that names
/// none of its vertices.
pub fn merge(case: &Merge, random: &mut Random) -> Result<(), String> {
    let Merge { source, target } = case;
    let (own, counts) = (Counts::of(target), Counts::of(source));
    let need = own.plus(counts);
    let from = holding(source, counts, random);
    let mut buffers = holding(target, need, random);
    let mut wanted = buffers.clone();
    short_merges(case, &from, &mut buffers)?;
    if counts.indices > 0 && counts.vertices < 65_536 {
        let mut astray = from.clone();
        let least = counts.vertices as u32;
        let index = least + random.below(65_536 - least);
        astray.indices[random.below(counts.indices as u32) as usize] = index as u16;
        let answer = merge_ours(source, &astray, target, buffers.lent());
        hold("index astray", answer, refused(7))?;
    }
    hold_buffers("refused", &buffers, &wanted)?;
    wanted.lay(&case.hexx(), Counts::default(), need);
    let answer = merge_ours(source, &from, target, buffers.lent());
    hold("merge", answer, done(need))?;
    hold_buffers("merge", &buffers, &wanted)
}

/// A merge of more vertices than can be numbered, of which hexx is not asked.
pub fn merge_too_many(case: &Merge, random: &mut Random) -> Result<(), String> {
    let Merge { source, target } = case;
    let need = Counts::of(source).plus(Counts::of(target));
    let from = holding(source, Counts::of(source), random);
    let mut buffers = holding(target, need, random);
    let untouched = buffers.clone();
    let answer = merge_ours(source, &from, target, buffers.lent());
    hold("merge of too many", answer, refused(4))?;
    hold_buffers("merge of too many", &buffers, &untouched)
}
