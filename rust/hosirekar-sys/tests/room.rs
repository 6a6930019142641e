//! Every set of short buffers, for every call that needs room. The first of them gives the number and its
//! whole need, and every place stays as it was; lengthened to that need, the call is refused for the next
//! one, until it is done. What is refused for another reason tells no need.

mod common;
use common::jobs::{call_job, hold_unlike, places, Column, Job, JobCall};
use common::merges::Merge;
use common::samples::*;
use common::*;
use hosirekar_sys::*;
use std::fmt::Display;

/// A set of short lists in their order, and what is lent.
type Short = (Vec<usize>, Lengths);

/// In which lists of a set, by their places in it, but one number is wanting; the others are as short as
/// can be.
const ONE_SHORT: [fn(usize) -> bool; 4] = [|_| true, |_| false, |k| k % 2 == 0, |k| k % 2 == 1];

/// All fifteen sets of lists that are short of a need and have at least some, each in all ways, with the
/// other lists exact and longer.
fn shorts(need: Lengths, least: Lengths) -> Vec<Short> {
    let mut all = Vec::new();
    for marks in 1..16 {
        let set: Vec<usize> = (0..4).filter(|list| marks >> list & 1 == 1).collect();
        // Of one list alone the last two ways are the first two again.
        let ways = if set.len() == 1 { 2 } else { 4 };
        for is_one_short in &ONE_SHORT[..ways] {
            for mut lent in [need, longer(need)] {
                for (k, &list) in set.iter().enumerate() {
                    let one_short = need[list] - 1;
                    assert!(least[list] <= one_short);
                    lent[list] = if is_one_short(k) {
                        one_short
                    } else {
                        least[list]
                    };
                }
                all.push((set.clone(), lent));
            }
        }
    }
    assert_eq!(all.len(), (4 * 2 + 11 * 4) * 2);
    all
}

/// Holds a call to every set of short lists. `hold` makes it with so much lent, and holds it to a number,
/// and to what it should tell and leave.
fn hold_sets(need: Lengths, least: Lengths, hold: impl Fn(Lengths, u32) -> CAnswer) {
    for (set, mut lent) in shorts(need, least) {
        for list in set {
            lent[list] = hold(lent, room_number(list)).need;
        }
        hold(lent, 0);
    }
}

/// Holds the build of a job and the call of each of its faces.
fn hold_job(job: &impl Job, what: impl Display) {
    let plan = job.plan();
    let need = needs(plan.vertices, plan.indices);
    let (mut whole, fresh) = (Mesh::known(need), Mesh::known(longer(need)));
    assert_eq!(job.build(whole.all()), plan, "{what}: the build");
    hold_unlike(&whole, &Mesh::known(need), &what);
    hold_call(
        job,
        JobCall::Build,
        &fresh.clone().with_front(&whole),
        &what,
    );
    let faces = job.faces().faces;
    assert!(faces > 0, "{what}: the faces");
    for face in 0..faces {
        let own = places(&job.window(face));
        let wanted = fresh.clone().with_places(&whole, own);
        hold_call(job, JobCall::Face(face), &wanted, &what);
    }
    for none in [faces, usize::MAX] {
        hold_before(job, JobCall::Face(none), 6, need, &what);
    }
}

/// Holds one call, which should leave this if it is done.
fn hold_call(job: &impl Job, call: JobCall, wanted: &Mesh, what: &impl Display) {
    let plan = job.plan();
    let need = needs(plan.vertices, plan.indices);
    let fresh = Mesh::known(longer(need));
    hold_sets(need, [0; 4], |lent, number| {
        let what = format!("{what}: {call:?}, lent {lent:?}");
        let mut made = fresh.clone();
        let given = call_job(job, call, made.front(lent));
        let counts = counts(plan.vertices, plan.indices);
        assert_eq!(given, answer(number, counts), "{what}");
        made.hold(if number == 0 { wanted } else { &fresh }, what);
        given
    });
}

/// Holds one call to a number that comes before room, with every set of lists short of a need, and with
/// all of it.
fn hold_before(job: &impl Job, call: JobCall, number: u32, need: Lengths, what: &impl Display) {
    let fresh = Mesh::known(longer(need));
    let lent = shorts(need, [0; 4]).into_iter().map(|(_, lent)| lent);
    for lent in lent.chain([need, longer(need)]) {
        let what = format!("{what}: {call:?}, lent {lent:?}");
        let mut made = fresh.clone();
        let given = call_job(job, call, made.front(lent));
        assert_eq!(given, refused(number), "{what}");
        made.hold(&fresh, what);
    }
}

/// Holds every call of a refused job to its number.
fn hold_refused(job: &impl Job, number: u32, what: impl Display) {
    let calls = [0, 1, usize::MAX].map(JobCall::Face);
    for call in [JobCall::Plan, JobCall::Build].into_iter().chain(calls) {
        hold_before(job, call, number, needs(36, 60), &what);
    }
}

#[test]
fn cheap_columns() {
    hold_job(&cheap_column(), "a cheap column");
    let mut far = cheap_column();
    far.job.height = f32::NAN;
    hold_refused(&far, 2, "a height that is no number");
    far.corners.pop();
    hold_refused(&far, 1, "a corner too few");
}

#[test]
fn planes() {
    for option in [255, 0, 1] {
        hold_job(&plane(option), format_args!("option {option}"));
    }
    let mut far = plane(0);
    far.corners[11] = f32::from_bits(BEYOND[0]);
    hold_refused(&far, 2, "a corner beyond the range");
    far.job.option = 2;
    hold_refused(&far, 1, "no such option");
}

#[test]
fn columns() {
    for (parts, top, bottom) in [(1, false, false), (2, true, false), (3, true, true)] {
        let what = format!("{parts} parts, top {top}, bottom {bottom}");
        hold_job(&column(parts, top, bottom), what);
    }
    let mut many = column(2_730, true, true);
    hold_refused(&many, 4, "a part too many");
    hold_refused(&column(u32::MAX, true, true), 4, "as many parts as can be");
    many.pairs[23] = f32::INFINITY;
    hold_refused(&many, 2, "an end beyond the range");
    many.table.marks.pop();
    hold_refused(&many, 1, "a mark too few");
}

#[test]
fn maps() {
    let (on, off) = (face(true, 255), face(false, 255));
    hold_job(&map(3, on, off), "caps");
    hold_job(&map(3, off, on), "sides");
    hold_job(&customed(fringed(map(3, on, face(true, 0)))), "all");
    let mut many = map(6_555, on, on);
    hold_refused(&many, 4, "a cell too many");
    many.neighbours[3] = 6_555;
    hold_refused(&many, 3, "a neighbour that is no cell");
    many.cells[26] = f32::NAN;
    hold_refused(&many, 2, "an end that is no number");
    many.job.fringe = 0;
    hold_refused(&many, 1, "a fringe that means nothing");
}

/// Nothing is too short for no numbers.
#[test]
fn jobs_without_a_face() {
    let mut none = column(u32::MAX, false, false);
    none.job.sides = [face(false, 255); 6];
    let mut mesh = Mesh::known([0; 4]);
    assert_eq!(none.build(mesh.all()), done(0, 0));
    assert_eq!(none.face(0, mesh.all()), refused(6));
}

#[test]
fn merges() {
    for shape in [[1, 1, 1, 1], [3, 7, 2, 5], [3, 7, 0, 0], [2, 300, 40, 3]] {
        let exact = Merge::exact(shape);
        hold_sets(exact.need, exact.own, |lent, number| {
            Merge {
                lent,
                number,
                ..exact
            }
            .hold()
        });
    }
}

/// Lists short of their counts, with those of the target among them; an index that names nothing.
#[test]
fn merges_that_are_refused_before_room() {
    let exact = Merge::exact([3, 7, 2, 5]);
    for (_, lent) in shorts(exact.need, exact.own) {
        let tight = Merge { lent, ..exact };
        for list in 0..8 {
            assert_eq!(tight.short(Some(list)).hold(), refused(1));
        }
        for odd in exact.unlawful_indices() {
            assert_eq!(tight.unlawful(odd).hold(), refused(7));
        }
    }
}

#[test]
fn merges_past_the_limit_are_refused_before_room() {
    let exact = Merge::exact([1, 3, 65_536, 3]);
    for (_, lent) in shorts(exact.need, exact.own) {
        assert_eq!(Merge { lent, ..exact }.hold(), refused(4));
    }
}

/// Six plain sides and both caps.
fn plain_column() -> Column {
    let mut plain = column(1, true, true);
    plain.job.sides = [face(true, 255); 6];
    plain.job.top = face(true, 255);
    plain
}

/// An answer but for its counts, which are 0.
fn told(number: u32, need: usize) -> CAnswer {
    CAnswer {
        number,
        need,
        ..CAnswer::default()
    }
}

#[test]
fn a_column_of_36_vertices_and_60_indices() {
    let column = plain_column();
    assert_eq!(column.plan(), done(36, 60));
    let exact = [108, 108, 72, 60];
    let cases = [
        (JobCall::Build, [107, 0, 0, 0], told(51, 108)),
        (JobCall::Build, [108, 107, 0, 0], told(52, 108)),
        (JobCall::Build, [108, 108, 71, 0], told(53, 72)),
        (JobCall::Build, [108, 108, 72, 59], told(54, 60)),
        (JobCall::Build, exact, done(36, 60)),
        (JobCall::Face(0), [107, 108, 72, 60], told(51, 108)),
        (JobCall::Face(7), [108, 108, 72, 0], told(54, 60)),
        (JobCall::Face(7), exact, done(36, 60)),
        (JobCall::Face(8), [0; 4], told(6, 0)),
    ];
    for (call, lent, wanted) in cases {
        let mut mesh = Mesh::known(exact);
        let given = call_job(&column, call, mesh.front(lent));
        assert_eq!(given, wanted, "{call:?}, lent {lent:?}");
    }
}

#[test]
fn a_merge_of_one_vertex_and_one_index_into_as_many() {
    let cases = [
        ([2, 3, 2, 1], told(1, 0)),
        ([5, 5, 3, 1], told(51, 6)),
        ([6, 5, 3, 1], told(52, 6)),
        ([6, 6, 3, 1], told(53, 4)),
        ([6, 6, 4, 1], told(54, 2)),
        ([6, 6, 4, 2], done(2, 2)),
    ];
    let one = counts(1, 1);
    for (lent, wanted) in cases {
        let (mut source, mut target) = (Mesh::known(needs(1, 1)), Mesh::known(needs(2, 2)));
        source.indices[0] = 0;
        let given = merge(one, source.all(), one, target.front(lent));
        assert_eq!(given, wanted, "lent {lent:?}");
    }
}
