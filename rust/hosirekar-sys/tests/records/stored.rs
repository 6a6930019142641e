//! Stored meshes: moved, merged, and their middles.

use crate::common::{
    self, done, hold, longer, needs, no_room, not_empty, refused, shortened, Lengths, Lent, Mesh,
};
use crate::reading::Record;
use hosirekar_sys::*;

/// Holds a call that changes a stored mesh in place.
fn changed(before: &Mesh, after: &Mesh, call: impl Fn(CCounts, Lent) -> CAnswer, what: &str) {
    let (counts, exact) = (before.counts(), before.lengths());
    assert_eq!(after.counts(), counts, "{what}");
    let fresh = Mesh::known(longer(exact)).with_front(before);
    let wanted = Mesh::known(longer(exact)).with_front(after);
    for lengths in [exact, longer(exact)] {
        let mut made = fresh.clone();
        let answer = call(counts, made.front(lengths));
        assert_eq!(answer, done(counts.vertices, counts.indices), "{what}");
        made.hold(&wanted, what);
    }
    for list in not_empty(exact) {
        let mut made = fresh.clone();
        let short = shortened(longer(exact), exact, list);
        let answer = call(counts, made.front(short));
        assert_eq!(answer, refused(1), "{what}, lent {short:?}");
        made.hold(&fresh, format_args!("{what}, lent {short:?}"));
    }
}

/// Holds a call that gives the middle of a list.
fn middled(
    mesh: &Mesh,
    middle: &[f32],
    call: impl Fn(CCounts, Lent) -> (CAnswer, Vec<f32>),
    what: &str,
) {
    let (counts, exact) = (mesh.counts(), mesh.lengths());
    let fresh = Mesh::known(longer(exact)).with_front(mesh);
    for lengths in [exact, longer(exact)] {
        let (answer, made) = call(counts, fresh.clone().front(lengths));
        assert_eq!(answer, done(counts.vertices, counts.indices), "{what}");
        hold(&made, middle, what);
    }
    for list in not_empty(exact) {
        let short = shortened(longer(exact), exact, list);
        let (answer, made) = call(counts, fresh.clone().front(short));
        assert_eq!(answer, refused(1), "{what}, lent {short:?}");
        hold(&made, &[0.0; 3][..middle.len()], what);
    }
}

fn scale(record: &mut Record, what: &str) {
    let mut cells = record.cells(87);
    let (by, before, after) = (cells.vec3(), cells.mesh(4, 8), cells.mesh(4, 8));
    let call =
        |counts, m: Lent| hosirekar_scale(counts, by, m.vertices, m.normals, m.uvs, m.indices);
    changed(&before, &after, call, what);
}

fn offset(record: &mut Record, what: &str) {
    let mut cells = record.cells(87);
    let (by, before, after) = (cells.vec3(), cells.mesh(4, 8), cells.mesh(4, 8));
    let call =
        |counts, m: Lent| hosirekar_offset(counts, by, m.vertices, m.normals, m.uvs, m.indices);
    changed(&before, &after, call, what);
}

fn texture_scale(record: &mut Record, what: &str) {
    let mut cells = record.cells(86);
    let (by, before, after) = (cells.vec2(), cells.mesh(4, 8), cells.mesh(4, 8));
    let call = |counts, m: Lent| {
        hosirekar_texture_scale(counts, by, m.vertices, m.normals, m.uvs, m.indices)
    };
    changed(&before, &after, call, what);
}

fn centroid(record: &mut Record, what: &str) {
    let mut cells = record.cells(109);
    let (mesh, middle) = (cells.mesh(12, 8), cells.floats(3));
    let call = |counts, m: Lent| {
        let made = hosirekar_centroid(counts, m.vertices, m.normals, m.uvs, m.indices);
        let CVec3 { x, y, z } = made.centroid;
        (made.answer, vec![x, y, z])
    };
    middled(&mesh, &middle, call, what);
}

fn uv_centroid(record: &mut Record, what: &str) {
    let mut cells = record.cells(108);
    let (mesh, middle) = (cells.mesh(12, 8), cells.floats(2));
    let call = |counts, m: Lent| {
        let made = hosirekar_uv_centroid(counts, m.vertices, m.normals, m.uvs, m.indices);
        let CVec2 { x, y } = made.centroid;
        (made.answer, vec![x, y])
    };
    middled(&mesh, &middle, call, what);
}

/// A source and a target, each with what lies past its counts.
struct Merge {
    counts: [CCounts; 2],
    source: Mesh,
    target: Mesh,
}

impl Merge {
    fn of(source: &Mesh, target: &Mesh, room: Lengths) -> Merge {
        Merge {
            counts: [source.counts(), target.counts()],
            source: Mesh::known(longer(source.lengths())).with_front(source),
            target: Mesh::known(room).with_front(target),
        }
    }

    /// The answer of a merge with so much of each list, and what it has left of the target.
    fn call(&self, given: Lengths, lent: Lengths) -> (CAnswer, Mesh) {
        let (mut from, mut onto) = (self.source.clone(), self.target.clone());
        let [source, target] = self.counts;
        let answer = common::merge(source, from.front(given), target, onto.front(lent));
        from.hold(&self.source, "a source");
        (answer, onto)
    }

    /// Holds a merge to a refusal that changes nothing.
    fn refuse(&self, given: Lengths, lent: Lengths, wanted: CAnswer, what: &str) {
        let (answer, left) = self.call(given, lent);
        let what = format!("{what}, given {given:?}, lent {lent:?}");
        assert_eq!(answer, wanted, "{what}");
        left.hold(&self.target, what);
    }
}

fn merge(record: &mut Record, what: &str) {
    let mut cells = record.cells(166);
    let (source, target, merged) = (cells.mesh(4, 8), cells.mesh(4, 8), cells.mesh(8, 16));
    let (exact, own, need) = (source.lengths(), target.lengths(), merged.lengths());
    let counts = merged.counts();
    let sum = |k: usize| [exact[k], own[k]].iter().sum();
    assert_eq!(need, std::array::from_fn(sum), "{what}");
    assert_eq!(need, needs(counts.vertices, counts.indices), "{what}");
    let room = longer(need);
    let merge = Merge::of(&source, &target, room);
    let wanted = Mesh::known(room).with_front(&merged);
    for (given, lent) in [(exact, need), (longer(exact), room)] {
        let (answer, left) = merge.call(given, lent);
        assert_eq!(answer, done(counts.vertices, counts.indices), "{what}");
        left.hold(&wanted, what);
    }
    for list in not_empty(exact) {
        let short = shortened(longer(exact), exact, list);
        merge.refuse(short, room, refused(1), what);
        let short = shortened(room, need, list);
        merge.refuse(exact, short, no_room(list, need[list]), what);
    }
    for list in not_empty(own) {
        merge.refuse(exact, shortened(room, own, list), refused(1), what);
    }
}

#[test]
fn stored_meshes_and_merges() {
    let mut record = Record::open("meshes.txt");
    record.part("scales", 130, scale);
    record.part("offsets", 130, offset);
    record.part("uvscales", 180, texture_scale);
    record.part("means", 160, centroid);
    record.part("uvmeans", 160, uv_centroid);
    record.part("merges", 180, merge);
    record.end();
}
