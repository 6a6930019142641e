//! Jobs that are refused, and jobs at the edge of it.

use crate::builder_cases::{recorded_columns, recorded_planes};
use crate::builders::{Choice, Column, Plane};
use crate::job_runs::{Call, Case, Fault};
use crate::job_words::{Job, Lines, Words};
use crate::mesh_cases::recorded;
use crate::numbers::LIMIT;
use glam::vec3;

/// What no number of a job may be.
pub const OUT_OF_RANGE: [f32; 5] = [
    f32::from_bits(LIMIT.to_bits() + 1),
    -f32::from_bits(LIMIT.to_bits() + 1),
    f32::NAN,
    f32::INFINITY,
    f32::NEG_INFINITY,
];

/// Cheap columns that are refused: for their corners, for each number with
/// each pattern, and for room.
#[must_use]
pub fn cheap() -> Vec<Lines> {
    let drawn = recorded().columns.pop().expect("some are drawn");
    let case = Case::from(&drawn);
    let mut all: Vec<Lines> = Vec::new();
    for length in [0, 11, 13] {
        let mut job = case.job.clone();
        job.corners.resize(length, 0.5);
        all.extend(refused_twice(&job, Fault::Shape, |job| {
            job.height = Some(f32::NAN);
        }));
    }
    for pattern in OUT_OF_RANGE {
        all.extend(out_of_range(&case.job, |_| pattern, |_| ()));
    }
    all.push(rooms(&case));
    all
}

/// Planes that are refused.
#[must_use]
pub fn planes() -> Vec<Lines> {
    let turned = recorded_planes().turned;
    let mut plane: Plane = turned[0].clone();
    let tables = turned.iter().map(|plane| &plane.options);
    plane.options = tables.flatten().copied().take(2).collect();
    plane.choice = Choice::Entry(1);
    plane.standing.scale = Some(vec3(1.5, 0.7, -2.1));
    plane.standing.offset = Some(vec3(0.1, -3.3, 1e-3));
    let case = Case::plane(&plane, &plane.written());
    let later = |job: &mut Job| job.position[1] = f32::INFINITY;
    let mut all = shapes(&case.job, &[6], later);
    all.extend(out_of_range(&case.job, turned_pattern, |_| ()));
    all.push(rooms(&case));
    all
}

/// Columns that are refused, and columns at the limit.
#[must_use]
pub fn columns() -> Vec<Lines> {
    let column = full_column();
    let case = Case::column(&column, &column.written());
    let later = |job: &mut Job| {
        job.height = Some(f32::NAN);
        job.subdivisions = Some(u32::MAX);
    };
    let beyond = |job: &mut Job| job.subdivisions = Some(1_000_000);
    let mut all = shapes(&case.job, &[0, 1, 2, 3, 4, 5, 6, 7], later);
    all.extend(out_of_range(&case.job, turned_pattern, beyond));
    all.push(rooms(&case));
    all.extend(limits(&column));
    all
}

/// A column with all that can be supplied.
fn full_column() -> Column {
    let columns = recorded_columns();
    let mut column = columns.turned[0].clone();
    let tables = columns.turned.iter().map(|column| &column.options);
    column.options = tables.flatten().copied().take(2).collect();
    column.sides = [Choice::Entry(0); 6];
    column.sides[2] = Choice::Default;
    column.sides[4] = Choice::Absent;
    column.top = Choice::Entry(1);
    column.bottom = Choice::Default;
    column.subdivisions = Some(2);
    column.standing.scale = Some(vec3(1.5, 0.7, -2.1));
    column.standing.offset = Some(vec3(0.1, -3.3, 1e-3));
    let turns = columns
        .turned
        .iter()
        .filter_map(|column| column.standing.turn);
    column.standing.turn = turns.take(1).last();
    column
}

/// The lines of a job that is refused, with long lists and with none.
pub(crate) fn refused<J: Words + Clone>(job: &J, fault: Fault) -> Lines {
    let case = Case::refused(job.clone(), fault);
    let calls = [Call::Plan, Call::Whole, Call::Face(0), Call::Face(999_999)];
    let runs = vec![case.run([64; 4], &calls), case.run([0; 4], &calls)];
    case.lines(runs)
}

/// A fault by itself, and with all later ones beside it.
fn refused_twice(job: &Job, fault: Fault, later: impl Fn(&mut Job)) -> [Lines; 2] {
    let mut with_later = job.clone();
    later(&mut with_later);
    [refused(job, fault), refused(&with_later, fault)]
}

/// Lists of a wrong length, marks that mean nothing, too many options, and
/// numbers that name no option.
fn shapes(base: &Job, faces: &[usize], later: impl Fn(&mut Job)) -> Vec<Lines> {
    let mut jobs: Vec<Job> = Vec::new();
    let mut with = |change: &dyn Fn(&mut Job)| {
        let mut job = base.clone();
        change(&mut job);
        jobs.push(job);
    };
    let entries = base.marks.len() / 4;
    for more in [-1, 1] {
        let length = |list: usize| list.saturating_add_signed(more);
        if !base.pairs.is_empty() {
            with(&|job| job.pairs.resize(length(24), 0.5));
        }
        with(&|job| job.corners.resize(length(12), 0.5));
        with(&|job| job.numbers.resize(length(9 * entries), 0.5));
        with(&|job| job.marks.resize(length(4 * entries), 0));
        with(&|job| job.marks.resize(4 * length(entries), 0));
    }
    if !base.pairs.is_empty() {
        with(&|job| job.pairs.clear());
    }
    with(&|job| job.corners.clear());
    with(&|job| job.numbers.clear());
    with(&|job| job.marks.clear());
    with(&|job| {
        job.numbers.resize(9 * 65, 0.5);
        job.marks.resize(4 * 65, 0);
    });
    for mark in 0..4 * entries {
        with(&|job| job.marks[mark] = if mark % 4 == 2 { 3 } else { 2 });
    }
    for &face in faces {
        with(&|job| job.choices[face] = entries as u32);
        with(&|job| job.choices[face] = 254);
    }
    let twice = |job: &Job| refused_twice(job, Fault::Shape, &later);
    jobs.iter().flat_map(twice).collect()
}

/// A pattern that changes from number to number.
pub(crate) fn turned_pattern(at: usize) -> f32 {
    OUT_OF_RANGE[at % OUT_OF_RANGE.len()]
}

/// Each number of a job out of range, every other time with the later fault.
fn out_of_range(
    base: &Job,
    pattern: impl Fn(usize) -> f32,
    later: impl Fn(&mut Job),
) -> Vec<Lines> {
    let mut all = Vec::new();
    for at in 0..base.clone().floats().len() {
        let mut job = base.clone();
        *job.floats()[at] = pattern(at);
        if at % 2 == 1 {
            later(&mut job);
        }
        all.push(refused(&job, Fault::Range));
    }
    all
}

/// The lists that are short: each alone, and each two.
const SHORT: [&[usize]; 10] = [
    &[0],
    &[1],
    &[2],
    &[3],
    &[0, 1],
    &[0, 2],
    &[0, 3],
    &[1, 2],
    &[1, 3],
    &[2, 3],
];

/// Each list and each two one short, empty and exact lists, with every call.
pub(crate) fn rooms<J: Words>(case: &Case<J>) -> Lines {
    let shorts = SHORT.iter().filter_map(|lists| case.short(lists));
    let mut calls = case.every_call().to_vec();
    calls.push(Call::Face(0));
    let lent = shorts.chain([[0; 4], case.exact()]);
    let runs = lent.map(|lengths| case.run(lengths, &calls));
    case.lines(runs.collect())
}

/// Columns with as many vertices as can be numbered, or nearly, and columns
/// with more.
fn limits(base: &Column) -> Vec<Lines> {
    let column = |sides: usize, subdivisions: u32, top: Choice, bottom: Choice| {
        let mut column = base.clone();
        let there = |side: usize| {
            if side < sides {
                Choice::Default
            } else {
                Choice::Absent
            }
        };
        column.sides = std::array::from_fn(there);
        column.subdivisions = Some(subdivisions);
        (column.top, column.bottom) = (top, bottom);
        column
    };
    let (there, none) = (Choice::Default, Choice::Absent);
    let mut all = Vec::new();
    for done in [
        column(6, 2730, there, there),
        column(1, 16_384, none, none),
        column(0, u32::MAX, there, there),
    ] {
        let case = Case::column(&done, &done.written());
        let calls = [
            Call::Plan,
            Call::Whole,
            Call::Face(1),
            Call::Face(case.faces.len()),
        ];
        all.push(case.lines(vec![case.run([64; 4], &calls), case.run([0; 4], &calls)]));
    }
    for beyond in [
        column(6, 2731, there, there),
        column(3, 5461, there, none),
        column(1, 16_385, none, none),
        column(6, u32::MAX, there, there),
    ] {
        all.push(refused(&Job::from(&beyond), Fault::Limit));
    }
    all
}
