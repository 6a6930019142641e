//! Planes and columns with a fault of every kind beside each other: the first in the order 1, 2, 4, 6, 51 to 54
//! gives the number, and every place of the lists stays as it was.

mod common;
use common::faults::*;
use common::jobs::{call_job, hold_faces, Column, Job, JobCall, Plane};
use common::*;
use hosirekar_sys::*;

fn plane() -> Plane {
    Plane {
        job: CPlane {
            position: CVec2 { x: 40.0, y: 50.0 },
            option: 0,
            placement: placement(),
        },
        corners: (0..12).map(|k| known(4, k)).collect(),
        table: table(),
    }
}

/// Three sides and both caps.
fn column(subdivisions: u32) -> Column {
    let face = |given, option| CChoice { given, option };
    Column {
        job: CColumn {
            height: 8.0,
            subdivisions: CSubdivisions {
                given: true,
                number: subdivisions,
            },
            sides: std::array::from_fn(|k| face(k % 2 == 0, if k == 2 { 0 } else { 255 })),
            top: face(true, 0),
            bottom: face(true, 255),
            position: CVec2 { x: 60.0, y: 70.0 },
            placement: placement(),
        },
        pairs: (0..24).map(|k| known(4, k)).collect(),
        corners: (0..12).map(|k| known(5, k)).collect(),
        table: table(),
    }
}

/// Every number of a plane.
fn plane_numbers(plane: &mut Plane) -> Vec<&mut f32> {
    let mut numbers: Vec<&mut f32> = plane.corners.iter_mut().collect();
    numbers.extend(&mut plane.table.numbers);
    numbers.extend(vec2(&mut plane.job.position));
    numbers.extend(placement_numbers(&mut plane.job.placement));
    numbers
}

/// Every number of a column, those of absent sides too.
fn column_numbers(column: &mut Column) -> Vec<&mut f32> {
    let mut numbers: Vec<&mut f32> = column.pairs.iter_mut().collect();
    numbers.extend(&mut column.corners);
    numbers.extend(&mut column.table.numbers);
    numbers.push(&mut column.job.height);
    numbers.extend(vec2(&mut column.job.position));
    numbers.extend(placement_numbers(&mut column.job.placement));
    numbers
}

fn plane_faults() -> Vec<Fault<Plane>> {
    let mut faults = table_faults(|plane: &mut Plane| &mut plane.table);
    faults.extend(list_faults("corners", |plane: &mut Plane| {
        &mut plane.corners
    }));
    for option in [1, 63, 64, 254] {
        let name = format!("option {option}");
        faults.push(fault(name, move |plane: &mut Plane| {
            plane.job.option = option
        }));
    }
    faults
}

/// A face whose option names nothing.
fn option_faults(
    name: &str,
    of: impl Fn(&mut Column) -> &mut CChoice + Copy + 'static,
) -> Vec<Fault<Column>> {
    let with = |option| {
        let face = CChoice {
            given: true,
            option,
        };
        fault(format!("option {option} of {name}"), move |c| *of(c) = face)
    };
    [1, 64, 254].map(with).into()
}

fn column_faults() -> Vec<Fault<Column>> {
    let mut faults = table_faults(|column: &mut Column| &mut column.table);
    faults.extend(list_faults("pairs", |column: &mut Column| {
        &mut column.pairs
    }));
    faults.extend(list_faults("corners", |column: &mut Column| {
        &mut column.corners
    }));
    for side in 0..6 {
        let name = format!("side {side}");
        faults.extend(option_faults(&name, move |column| {
            &mut column.job.sides[side]
        }));
    }
    faults.extend(option_faults("the top", |column| &mut column.job.top));
    faults.extend(option_faults("the bottom", |column| &mut column.job.bottom));
    faults
}

/// A job of so many faces, and 4 if it has too many vertices.
struct Tried<J> {
    job: J,
    faces: usize,
    limit: u32,
}

/// The number of a call where 1, 2 or 4 comes first, or none of them.
fn number(first: u32, call: JobCall, faces: usize, tight: Option<usize>) -> u32 {
    match call {
        _ if first > 0 => first,
        JobCall::Face(face) if face >= faces => 6,
        JobCall::Build | JobCall::Face(_) => tight.map_or(0, room_number),
        JobCall::Plan => 0,
    }
}

/// Holds the calls of a job to their numbers, lent exact lists and each one short.
fn hold_calls<J: Job>(tried: &Tried<J>, first: u32, whole: &Mesh, fresh: &Mesh, what: &str) {
    let (need, faces) = (whole.lengths(), tried.faces);
    let tight = (0..4).map(|list| shortened(need, need, list));
    let calls = [0, faces - 1, faces, usize::MAX].map(JobCall::Face);
    let mut left = fresh.clone();
    for room in std::iter::once(need).chain(tight) {
        for call in [JobCall::Plan, JobCall::Build].into_iter().chain(calls) {
            let number = number(first, call, faces, first_short(room, need));
            // A call that fills lists is lent its own, or it would hide what others wrote.
            let mut filled = (number == 0 && call != JobCall::Plan).then(|| fresh.clone());
            let lent = filled.as_mut().unwrap_or(&mut left).front(room);
            let given = call_job(&tried.job, call, lent);
            let wanted = answer(number, whole.counts());
            assert_eq!(given, wanted, "{what}: {call:?}, lent {room:?}");
            if let (Some(made), JobCall::Build) = (filled, call) {
                made.hold(&fresh.clone().with_front(whole), what);
            }
        }
    }
    left.hold(fresh, what);
    if first == 0 {
        hold_faces(&tried.job, faces, whole, what);
    }
}

/// Holds a job with one fault of each kind, or none, beside each other. Returns how many there were.
fn hold_sets<J: Job + Clone>(
    tried: &Tried<J>,
    whole: &Mesh,
    faults: &[Fault<J>],
    numbers: fn(&mut J) -> Vec<&mut f32>,
) -> usize {
    let fresh = Mesh::known(longer(whole.lengths()));
    let none: Fault<J> = fault("no list wrong", |_| ());
    let count = numbers(&mut tried.job.clone()).len();
    let beyond = (0..count).flat_map(|place| BEYOND.map(|value| Some((place, value))));
    let mut sets = 0;
    for beyond in std::iter::once(None).chain(beyond) {
        for (at, (name, change)) in std::iter::once(&none).chain(faults).enumerate() {
            let mut job = tried.job.clone();
            if let Some((place, value)) = beyond {
                *numbers(&mut job)[place] = f32::from_bits(value);
            }
            change(&mut job);
            let first = match beyond {
                _ if at > 0 => 1,
                Some(_) => 2,
                None => tried.limit,
            };
            let what = format!("{name}, number {beyond:x?}, limit {}", tried.limit);
            let changed = Tried { job, ..*tried };
            hold_calls(&changed, first, whole, &fresh, &what);
            sets += 1;
        }
    }
    sets
}

/// What a job makes into exact lists.
fn built(job: &impl Job) -> Mesh {
    let counts = job.plan();
    let mut whole = Mesh::known(needs(counts.vertices, counts.indices));
    assert_eq!(job.build(whole.all()), counts);
    whole
}

#[test]
fn planes_with_every_set_of_faults() {
    let (job, whole) = (plane(), built(&plane()));
    let tried = Tried {
        job,
        faces: 1,
        limit: 0,
    };
    let sets = hold_sets(&tried, &whole, &plane_faults(), plane_numbers);
    assert_eq!(sets, (1 + 38 * 5) * 21);
}

#[test]
fn columns_with_every_set_of_faults() {
    let whole = built(&column(2));
    // Three sides of two parts, or of so many that there are too many vertices.
    for (subdivisions, limit) in [(2, 0), (4_095, 4), (u32::MAX, 4)] {
        let job = column(subdivisions);
        let tried = Tried {
            job,
            faces: 8,
            limit,
        };
        let sets = hold_sets(&tried, &whole, &column_faults(), column_numbers);
        assert_eq!(sets, (1 + 63 * 5) * 44);
    }
}
