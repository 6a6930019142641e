//! What is told of faces: the windows of all of them are the whole mesh, end to end, and the call for a face writes
//! its own and nothing else. A refused job tells its number and nothing more; 6 comes after 1, 2, 3 and 4.

mod common;
use common::jobs::{hold_face, hold_unlike, places, Job};
use common::samples::*;
use common::*;
use hosirekar_sys::*;
use std::fmt::Display;

/// Holds a job of so many faces: their windows, and that each face's call writes its own.
fn hold_windows(job: &impl Job, faces: usize, what: impl Display) {
    let planned = job.plan();
    assert_eq!(planned.number, 0, "{what}: the plan");
    let answer = planned;
    assert_eq!(job.faces(), CFaces { answer, faces }, "{what}: the faces");
    let fresh = Mesh::known(needs(planned.vertices, planned.indices));
    let mut whole = fresh.clone();
    assert_eq!(job.build(whole.all()), planned, "{what}: the build");
    hold_unlike(&whole, &fresh, &what);
    let (mut vertex, mut index) = (0, 0);
    for face in 0..faces {
        let told = job.window(face);
        assert_eq!(told.answer, planned, "{what}: window {face}");
        let at = (told.first_vertex, told.first_index);
        assert_eq!(at, (vertex, index), "{what}: window {face}");
        assert!(told.vertices > 0 && told.indices > 0, "{what}: {face}");
        hold_face(job, face, &whole, places(&told), &what);
        (vertex, index) = (vertex + told.vertices, index + told.indices);
    }
    let all = (planned.vertices, planned.indices);
    assert_eq!((vertex, index), all, "{what}: the windows end to end");
    for none in [faces, faces + 1, usize::MAX] {
        hold_no_window(job, none, 6, &what);
    }
}

fn hold_no_window(job: &impl Job, face: usize, number: u32, what: &impl Display) {
    let wanted = CWindow {
        answer: refused(number),
        ..CWindow::default()
    };
    assert_eq!(job.window(face), wanted, "{what}: window {face}");
}

/// Holds a job that is refused with a number, which comes before 6.
fn hold_refused(job: &impl Job, number: u32, what: impl Display) {
    assert_eq!(job.plan(), refused(number), "{what}: the plan");
    let wanted = CFaces {
        answer: refused(number),
        faces: 0,
    };
    assert_eq!(job.faces(), wanted, "{what}: the faces");
    for face in [0, 1, 70_000, usize::MAX] {
        hold_no_window(job, face, number, &what);
    }
}

#[test]
fn planes() {
    for option in [255, 0, 1] {
        hold_windows(&plane(option), 1, format_args!("option {option}"));
    }
    hold_refused(&plane(2), 1, "no such option");
    let mut far = plane(0);
    far.corners[11] = f32::from_bits(BEYOND[0]);
    hold_refused(&far, 2, "a corner beyond the range");
    far.table.marks.pop();
    hold_refused(&far, 1, "1 before 2");
}

#[test]
fn cheap_columns() {
    hold_windows(&cheap_column(), 1, "a cheap column");
    let mut far = cheap_column();
    far.job.height = f32::INFINITY;
    hold_refused(&far, 2, "a height beyond the range");
    far.corners.push(0.0);
    hold_refused(&far, 1, "1 before 2");
}

#[test]
fn columns() {
    for parts in [0, 1, 2, 7] {
        for caps in 0..4 {
            let (top, bottom) = (caps % 2 == 1, caps / 2 == 1);
            let faces = 4 * parts.max(1) as usize + usize::from(top) + usize::from(bottom);
            hold_windows(
                &column(parts, top, bottom),
                faces,
                format_args!("{parts} parts, top {top}, bottom {bottom}"),
            );
        }
    }
    let mut none = column(u32::MAX, false, false);
    none.job.sides = [face(false, 255); 6];
    hold_windows(&none, 0, "no face");
}

/// 24 vertices a part of all four sides, 12 of the top and 6 of the bottom.
#[test]
fn columns_that_are_refused() {
    let full = column(2_729, true, true);
    assert_eq!(full.plan().vertices, 65_514, "nearly full");
    assert_eq!(full.faces().faces, 10_918, "nearly full");
    let mut many = column(2_730, true, true);
    hold_refused(&many, 4, "a part too many");
    many.job.height = f32::NAN;
    hold_refused(&many, 2, "2 before 4");
    many.pairs.clear();
    hold_refused(&many, 1, "1 before 2");
    hold_refused(&column(u32::MAX, true, true), 4, "as many parts as can be");
}

#[test]
fn maps() {
    let (on, off) = (face(true, 255), face(false, 255));
    hold_windows(&map(0, on, on), 0, "no cells");
    hold_windows(&map(5, on, off), 5, "caps");
    hold_windows(&map(5, off, on), 4, "sides");
    hold_windows(&map(5, face(true, 0), face(true, 1)), 9, "insets");
    // At the edge the sides 0, 2 and 4 stand; side 2 of all but the first cell stands against a neighbour.
    let edged = fringed(map(5, on, face(true, 0)));
    let faces = edged.faces().faces;
    hold_windows(&edged, faces, "a fringe");
    assert_eq!(faces, 5 + 4 + 3 + 4 * 2, "a fringe");
    hold_windows(&customed(map(5, on, on)), 9, "customs");
    hold_windows(&customed(edged), faces, "a fringe and customs");
}

#[test]
fn maps_that_are_refused() {
    let on = face(true, 255);
    // Six vertices a cap and four a side, which the first cell has not.
    let full = map(6_554, on, on);
    assert_eq!(full.plan(), done(65_536, 6_554 * 12 + 6_553 * 6), "full");
    assert_eq!(full.faces().faces, 13_107, "full");
    let last = full.window(13_106);
    assert_eq!(places(&last), [65_532..65_536, 117_960..117_966], "full");
    hold_no_window(&full, 13_107, 6, &"full");
    let mut many = map(6_555, on, on);
    hold_refused(&many, 4, "a cell too many");
    many.neighbours[3] = 6_555;
    hold_refused(&many, 3, "3 before 4");
    many.cells[26] = f32::NAN;
    hold_refused(&many, 2, "2 before 3");
    many.customs.push(0);
    many.job.customs = true;
    hold_refused(&many, 1, "1 before 2");
    hold_refused(&map(65_537, on, on), 1, "65,537 cells");
    let mut unmeant = map(2, on, on);
    for fringe in [0, 3, 255] {
        unmeant.job.fringe = fringe;
        hold_refused(&unmeant, 1, format_args!("fringe {fringe}"));
    }
}
