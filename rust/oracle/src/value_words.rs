//! Stored meshes as `replay_maps` reads them, merges and points as `replay` does,
//! each with hexx's answer as a digest, and those that are refused.

use crate::answers;
use crate::cases::Cases as FaceCases;
use crate::digest::{Digest, Lists};
use crate::job_faults::OUT_OF_RANGE;
use crate::job_words::Lines;
use crate::line::bits;
use crate::mesh_cases::{Cases as MeshCases, Merge, recorded};
use crate::room::{self, first_short};
use crate::{MeshInfo, UVOptions};
use glam::{Vec2, Vec3};

/// What is done to a stored mesh.
#[derive(Debug, Clone, Copy, PartialEq, Eq)]
enum Change {
    Scale = 0,
    Offset = 1,
    TextureScale = 2,
    Centroid = 3,
    UvCentroid = 4,
}

/// A call of a stored mesh: what it is told, and what is lent to it.
#[derive(Debug, Clone)]
struct Stored {
    change: Change,
    counts: [u32; 2],
    by: Vec3,
    before: Lists,
    /// How much of each list is the mesh's own.
    known: [usize; 4],
}

/// A mesh's vertex and index count.
fn counts(mesh: &MeshInfo) -> [u32; 2] {
    [mesh.vertices.len(), mesh.indices.len()].map(|count| count as u32)
}

fn lengths(counts: [u32; 2]) -> [usize; 4] {
    room::lengths(counts.map(|count| count as usize))
}

/// Some places more than these in each list.
fn longer(lengths: [usize; 4]) -> [usize; 4] {
    [
        lengths[0] + 7,
        lengths[1] + 5,
        lengths[2] + 4,
        lengths[3] + 3,
    ]
}

/// The lists of a mesh in lists of these lengths.
fn within(mesh: &MeshInfo, lengths: [usize; 4]) -> Lists {
    let own = Lists::of(mesh);
    let ends = own.lengths();
    let to = [0, 1, 2, 3].map(|list| ends[list].min(lengths[list]));
    let mut lists = Lists::kept(lengths);
    lists.lay(&own, [0; 4], to);
    lists
}

/// The words of lists: how long they are, how much of them is known to be
/// other than what stands there before every call, and that.
fn list_lines(lists: &Lists, known: [usize; 4]) -> Lines {
    let lengths = lists.lengths();
    let known = [0, 1, 2, 3].map(|list| known[list].min(lengths[list]));
    let words = |all: [usize; 4]| all.map(|length| length as u32);
    let mut lines = vec![[words(lengths), words(known)].concat()];
    lines.extend((0..4).map(|list| lists.0[list][..known[list]].to_vec()));
    lines
}

/// A number, both counts of what is done, the need, and a digest.
fn answer([number, need]: [u32; 2], counts: [u32; 2], digest: Digest) -> Vec<u32> {
    let [vertices, indices] = if number == 0 { counts } else { [0; 2] };
    let mut words = vec![number, vertices, indices, need];
    words.extend(digest.words());
    words
}

impl Stored {
    fn new(change: Change, by: Vec3, mesh: &MeshInfo) -> Self {
        let counts = counts(mesh);
        Self {
            change,
            counts,
            by,
            before: within(mesh, longer(lengths(counts))),
            known: lengths(counts),
        }
    }

    /// The call with its number, the value that it gives and what it leaves.
    fn lines(&self, number: u32, value: Vec3, after: &Lists) -> Lines {
        let mut first = vec![self.change as u32];
        first.extend(self.counts);
        first.extend(self.by.to_array().map(bits));
        let mut lines = vec![first];
        lines.extend(list_lines(&self.before, self.known));
        let mut digest = Digest::default();
        digest.floats(&value.to_array());
        digest.lists(after);
        lines.push(answer([number, 0], self.counts, digest));
        lines
    }

    fn refused(&self, number: u32) -> Lines {
        self.lines(number, Vec3::ZERO, &self.before)
    }

    /// The call of a mesh that hexx makes another one of.
    fn changed(&self, mesh: &MeshInfo) -> Lines {
        let after = within(mesh, self.before.lengths());
        self.lines(0, Vec3::ZERO, &after)
    }

    /// The same with lists of which one is one short.
    fn one_short(&self, list: usize) -> Option<Self> {
        let mut short = self.clone();
        let length = lengths(self.counts)[list].checked_sub(1)?;
        short.before.0[list].truncate(length);
        Some(short)
    }
}

/// Every stored mesh of the cases, and those that are refused.
#[must_use]
pub fn stored(cases: &MeshCases) -> Vec<Lines> {
    let mut all = Vec::new();
    for (by, mesh) in &cases.scales {
        let changed = mesh.clone().with_scale(*by);
        all.push(Stored::new(Change::Scale, *by, mesh).changed(&changed));
    }
    for (by, mesh) in &cases.offsets {
        let changed = mesh.clone().with_offset(*by);
        all.push(Stored::new(Change::Offset, *by, mesh).changed(&changed));
    }
    for (by, mesh) in &cases.uv_scales {
        let changed = mesh.clone().with_uv_scale(*by);
        let stored = Stored::new(Change::TextureScale, by.extend(0.0), mesh);
        all.push(stored.changed(&changed));
    }
    for mesh in &cases.means {
        let stored = Stored::new(Change::Centroid, Vec3::ZERO, mesh);
        all.push(stored.lines(0, mesh.centroid(), &stored.before));
    }
    for mesh in &cases.uv_means {
        let stored = Stored::new(Change::UvCentroid, Vec3::ZERO, mesh);
        all.push(stored.lines(0, mesh.uv_centroid().extend(0.0), &stored.before));
    }
    all.extend(stored_faults(&recorded().means));
    all
}

/// Lists that are short, with a parameter out of range beside them; each
/// component of a parameter out of range; and centroids of nothing.
fn stored_faults(meshes: &[MeshInfo]) -> Vec<Lines> {
    use Change::{Centroid, Offset, Scale, TextureScale, UvCentroid};
    let full = |mesh: &&MeshInfo| mesh.vertices.len() > 2 && mesh.indices.len() > 2;
    let mesh = meshes.iter().find(full).expect("some mesh has all lists");
    let nothing = MeshInfo::default();
    let mut all = Vec::new();
    for change in [Scale, Offset, TextureScale, Centroid, UvCentroid] {
        let plain = Stored::new(change, Vec3::splat(0.5), mesh);
        let beyond = Stored::new(change, Vec3::splat(f32::NAN), mesh);
        for stored in [plain.clone(), beyond] {
            let shorts = (0..4).filter_map(|list| stored.one_short(list));
            all.extend(shorts.map(|short| short.refused(1)));
        }
        for counts in [[u32::MAX, 0], [0, u32::MAX], [65_537, 0]] {
            let stored = Stored {
                counts,
                ..plain.clone()
            };
            all.push(stored.refused(1));
        }
        let components = match change {
            Scale | Offset => 3,
            TextureScale => 2,
            Centroid | UvCentroid => 0,
        };
        for component in 0..components {
            for number in OUT_OF_RANGE {
                let mut stored = plain.clone();
                stored.by[component] = number;
                all.push(stored.refused(2));
            }
        }
        if components == 0 {
            let empty = Stored::new(change, Vec3::ZERO, &nothing);
            all.push(empty.refused(8));
            let short = Stored {
                counts: [0, 9],
                ..empty
            };
            all.push(short.refused(1));
        } else {
            let empty = Stored::new(change, Vec3::splat(2.0), &nothing);
            all.push(empty.changed(&nothing));
        }
    }
    all
}

/// A merge: the source and the target, each with its counts and its lists.
#[derive(Debug, Clone)]
struct Merging {
    counts: [[u32; 2]; 2],
    source: Lists,
    target: Lists,
}

impl Merging {
    fn new(case: &Merge) -> Self {
        let counts = [counts(&case.source), counts(&case.target)];
        let need = [0, 1].map(|at| counts[0][at] + counts[1][at]);
        Self {
            counts,
            source: within(&case.source, longer(lengths(counts[0]))),
            target: within(&case.target, longer(lengths(need))),
        }
    }

    fn need(&self) -> [u32; 2] {
        [0, 1].map(|at| self.counts[0][at] + self.counts[1][at])
    }

    /// The merge with its number and need, and what it leaves.
    fn lines(&self, told: [u32; 2], after: &Lists) -> Lines {
        let [source, target] = self.counts;
        let mut lines = vec![source.to_vec()];
        lines.extend(list_lines(&self.source, lengths(source)));
        lines.push(target.to_vec());
        lines.extend(list_lines(&self.target, lengths(target)));
        let mut digest = Digest::default();
        digest.lists(after);
        lines.push(answer(told, self.need(), digest));
        lines
    }

    fn refused(&self, number: u32) -> Lines {
        self.lines([number, 0], &self.target)
    }

    /// The number and the need that the target's lengths give, if one is short
    /// of the merge: 1 where one is short of the target's own counts.
    fn short(&self) -> Option<[u32; 2]> {
        let (need, lent) = (lengths(self.need()), self.target.lengths());
        let list = first_short(lent, need)?;
        let told = [room::number(list), need[list] as u32];
        let own = first_short(lent, lengths(self.counts[1]));
        Some(own.map_or(told, |_| [1, 0]))
    }

    /// These lists of the target cut below what the merge needs.
    fn one_short(&self, lists: &[usize]) -> Option<Lines> {
        let mut short = self.clone();
        for &list in lists {
            let length = lengths(self.need())[list].saturating_sub(1);
            short.target.0[list].truncate(length);
        }
        Some(short.lines(short.short()?, &short.target))
    }
}

/// Every merge of the cases, and those that are refused.
#[must_use]
pub fn merges(cases: &MeshCases) -> Vec<Lines> {
    let mut all = Vec::new();
    for (at, case) in cases.merges.iter().enumerate() {
        let merging = Merging::new(case);
        all.push(merging.lines([0; 2], &within(&case.hexx(), merging.target.lengths())));
        if at % 4 == 0 {
            // Every other time with another list.
            let (round, list) = (at / 16, at / 4 % 4);
            let lists = [list, (list + 1 + round / 2 % 3) % 4];
            all.extend(merging.one_short(&lists[..1 + round % 2]));
        }
    }
    let full = |mesh: &MeshInfo| mesh.vertices.len() > 1 && mesh.indices.len() > 1;
    let both = |case: &&Merge| full(&case.source) && full(&case.target);
    for case in recorded().merges.iter().filter(both).take(2) {
        all.extend(merge_faults(&Merging::new(case)));
    }
    all
}

/// Each list of either mesh too short for its counts, with an index astray and
/// no room beside it; an index astray, with and without room; each list without
/// room.
fn merge_faults(base: &Merging) -> Vec<Lines> {
    let mut all = Vec::new();
    let mut astray = base.clone();
    let last = base.counts[0][1] as usize - 1;
    astray.source.0[3][last] = base.counts[0][0];
    let mut crowded = astray.clone();
    for list in 0..4 {
        crowded.target.0[list].truncate(lengths(base.counts[1])[list]);
    }
    for merging in [base, &astray, &crowded] {
        for list in 0..4 {
            let mut short = merging.clone();
            short.source.0[list].truncate(lengths(base.counts[0])[list] - 1);
            all.push(short.refused(1));
            let mut short = merging.clone();
            short.target.0[list].truncate(lengths(base.counts[1])[list] - 1);
            all.push(short.refused(1));
        }
    }
    all.push(astray.refused(7));
    all.push(crowded.refused(7));
    astray.source.0[3][last] = 65_535;
    all.push(astray.refused(7));
    all.extend((0..4).filter_map(|list| base.one_short(&[list])));
    all
}

fn texture(words: &mut Vec<u32>, options: &UVOptions) {
    words.extend([options.flip.x, options.flip.y].map(u32::from));
    let UVOptions {
        scale_factor,
        offset,
        rect,
        ..
    } = options;
    for pair in [*scale_factor, *offset, rect.min, rect.max] {
        words.extend(pair.to_array().map(bits));
    }
}

/// A line of what a case is made of, and one of its digest.
fn value(words: Vec<u32>, digest: Digest) -> Lines {
    vec![words, digest.words().to_vec()]
}

fn point(altered: Vec2) -> Digest {
    let mut digest = Digest::default();
    digest.floats(&altered.to_array());
    digest
}

/// Points altered by texture options.
#[must_use]
pub fn points(cases: &FaceCases) -> Vec<Lines> {
    let line = |(options, at): &(UVOptions, Vec2)| {
        let mut words = Vec::new();
        texture(&mut words, options);
        words.extend(at.to_array().map(bits));
        value(words, point(options.alter_uv(*at)))
    };
    cases.points.iter().map(line).collect()
}

/// Points wrapped.
#[must_use]
pub fn wraps(cases: &FaceCases) -> Vec<Lines> {
    let line = |at: &Vec2| value(at.to_array().map(bits).to_vec(), point(answers::wrap(*at)));
    cases.wraps.iter().map(line).collect()
}
