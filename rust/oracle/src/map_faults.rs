//! Height maps that are refused, and maps at the edge of it.

use crate::builders::Choice;
use crate::cases::three_ways;
use crate::job_faults::{refused, rooms, turned_pattern};
use crate::job_runs::{Call, Case, Fault};
use crate::job_words::Lines;
use crate::map_grounds::Layout;
use crate::map_limits::stepped;
use crate::map_words::{MapJob, OFF};
use crate::maps::{Map, NOBODY, NUMBERS, OWN, Turn};
use glam::{Quat, vec2, vec3};

/// All of them: refused by each number, done with lists that are not read, and
/// refused for room.
#[must_use]
pub fn maps() -> Vec<Lines> {
    let map = full();
    let base = MapJob::from(&map);
    let mut all: Vec<Lines> = shapes(&base).iter().flat_map(twice).collect();
    all.extend(ranges(&base).iter().map(|job| by_itself(job, Fault::Range)));
    let links = neighbours(&base);
    all.extend(links.iter().map(|job| by_itself(job, Fault::Neighbour)));
    all.extend(unread());
    all.push(rooms(&Case::map(&map)));
    all.push(rooms(&Case::map(&Map {
        caps: Choice::Absent,
        ..map
    })));
    all
}

/// Two cells with all that can be supplied.
fn full() -> Map {
    let layout = Layout {
        pointy: true,
        by: vec2(1.2, 0.9),
        origin: vec2(17.3, -4.25),
    };
    let [_, centroid, smallest] = three_ways(1).map(|(options, _)| options);
    Map {
        fringe: Some((0..12).map(|at| at as f32 * 0.5 - 2.0).collect()),
        customs: Some([[OWN, OWN, 0, 1, OWN, 1, OWN]; 2].concat()),
        options: vec![centroid, smallest],
        caps: Choice::Entry(1),
        sides: Choice::Default,
        range: Some([-2.0, 4.0]),
        scale: Some(vec3(1.5, 0.7, -2.1)),
        turn: Some(Turn::By(Quat::from_rotation_x(0.3))),
        offset: Some(vec3(0.1, -3.3, 1e-3)),
        ..layout.map(&[[0, 0], [1, 0]], &[3.0, 1.0])
    }
}

/// The lines of a refused job, which must be refused for this.
fn by_itself(job: &MapJob, fault: Fault) -> Lines {
    assert_eq!(job.fault(), Some(fault), "{job:?}");
    refused(job, fault)
}

/// A wrong shape by itself, and with a number out of range and a neighbour that
/// is none beside it. The second run of each lends nothing to fill.
fn twice(job: &MapJob) -> [Lines; 2] {
    let mut later = job.clone();
    later.offset = Some([0.0, f32::NAN, 0.0]);
    later
        .cells
        .iter_mut()
        .step_by(NUMBERS)
        .for_each(|x| *x = f32::INFINITY);
    strayed(&mut later);
    [job, &later].map(|job| by_itself(job, Fault::Shape))
}

/// With a neighbour that is neither a cell nor none.
fn strayed(job: &mut MapJob) {
    if let Some(last) = job.neighbours.last_mut() {
        *last = NOBODY - 1;
    }
}

/// Every change of a job.
struct Changes<'j> {
    base: &'j MapJob,
    jobs: Vec<MapJob>,
}

impl<'j> Changes<'j> {
    fn new(base: &'j MapJob) -> Self {
        let jobs = Vec::new();
        Self { base, jobs }
    }

    fn with(&mut self, change: impl Fn(&mut MapJob)) {
        let mut job = self.base.clone();
        change(&mut job);
        self.jobs.push(job);
    }
}

/// Lists of a wrong length, marks that mean nothing, too many options, and
/// numbers that name no option.
fn shapes(base: &MapJob) -> Vec<MapJob> {
    let mut all = Changes::new(base);
    let short = |length: usize| length - 1;
    let long = |length: usize| length + 1;
    let none = |_: usize| 0;
    for change in [short, long, none] {
        all.with(|job| job.cells.resize(change(job.cells.len()), 0.5));
        all.with(|job| job.neighbours.resize(change(job.neighbours.len()), 0));
        all.with(|job| job.fringe.resize(change(job.fringe.len()), 0.5));
        all.with(|job| job.customs.resize(change(job.customs.len()), OWN));
        all.with(|job| job.corners.resize(change(job.corners.len()), 0.5));
        all.with(|job| job.numbers.resize(change(job.numbers.len()), 0.5));
        all.with(|job| job.marks.resize(change(job.marks.len()), 0));
    }
    // A whole cell or a whole option more or fewer in one list alone.
    for count in [1, 3] {
        all.with(|job| job.cells.resize(NUMBERS * count, 0.5));
        all.with(|job| job.marks.resize(4 * count, 0));
    }
    all.with(|job| {
        job.numbers.resize(9 * 65, 0.5);
        job.marks.resize(4 * 65, 0);
    });
    for mark in 4..8 {
        all.with(|job| job.marks[mark] = if mark == 6 { 3 } else { 2 });
    }
    unnamed(&mut all);
    all.jobs
}

/// Numbers that name no option, of faces that are there and that are not.
fn unnamed(all: &mut Changes) {
    for number in [2, 254] {
        all.with(|job| job.caps = number);
        all.with(|job| job.sides = number);
    }
    for at in 7..14 {
        all.with(|job| job.customs[at] = if at % 2 == 0 { 2 } else { 254 });
    }
    all.with(|job| (job.caps, job.customs[0]) = (OFF, 2));
    all.with(|job| (job.sides, job.customs[6]) = (OFF, 2));
}

/// Each kind of number out of range, every other time with a neighbour that is
/// none beside it.
fn ranges(base: &MapJob) -> Vec<MapJob> {
    let mut all = Changes::new(base);
    let mut patterns = (0..).map(turned_pattern);
    let mut next = || patterns.next().expect("they never end");
    // Of the second cell: height, position, and the ends of the first side and
    // of the last.
    for place in [0, 1, 2, 3, 4, 5, 6, 23, 24, 25, 26] {
        let x = next();
        all.with(|job| job.cells[NUMBERS + place] = x);
    }
    // Across side 0 of the first cell is the second: that height is not used.
    for place in [0, 11] {
        let x = next();
        all.with(|job| job.fringe[place] = x);
        all.with(|job| (job.sides, job.fringe[place]) = (OFF, x));
    }
    for place in [0, 11] {
        let x = next();
        all.with(|job| job.corners[place] = x);
        all.with(|job| (job.caps, job.corners[place]) = (OFF, x));
    }
    for place in 9..18 {
        let x = next();
        all.with(|job| job.numbers[place] = x);
    }
    for place in 0..2 {
        let [x, y] = [next(), next()];
        all.with(|job| {
            job.range
                .as_mut()
                .into_iter()
                .for_each(|two| two[place] = x)
        });
        all.with(|job| {
            job.origin
                .as_mut()
                .into_iter()
                .for_each(|two| two[place] = y)
        });
    }
    for place in 0..3 {
        let [x, y, z] = [next(), next(), next()];
        all.with(|job| {
            job.scale
                .as_mut()
                .into_iter()
                .for_each(|three| three[place] = x)
        });
        all.with(|job| {
            job.offset
                .as_mut()
                .into_iter()
                .for_each(|three| three[place] = y)
        });
        all.with(|job| {
            job.turn
                .as_mut()
                .into_iter()
                .for_each(|rows| rows[place][2 - place] = z)
        });
    }
    all.jobs.iter_mut().skip(1).step_by(2).for_each(strayed);
    all.jobs
}

/// Neighbours that are neither a cell nor none, with sides and without.
fn neighbours(base: &MapJob) -> Vec<MapJob> {
    let mut all = Changes::new(base);
    let strays = [
        (0, 2),
        (11, 2),
        (0, NOBODY - 1),
        (11, NOBODY - 1),
        (3, 65_536),
        (8, 1 << 31),
    ];
    for (place, stray) in strays {
        all.with(|job| job.neighbours[place] = stray);
    }
    all.with(|job| (job.sides, job.neighbours[5]) = (OFF, 2));
    all.with(|job| (job.caps, job.sides, job.neighbours[6]) = (OFF, OFF, NOBODY - 1));
    all.with(|job| (job.fringed, job.neighbours[11]) = (false, 2));
    all.jobs
}

/// Maps that are done, whatever stands in lists that are not given.
fn unread() -> Vec<Lines> {
    let map = Map {
        fringe: None,
        customs: None,
        ..full()
    };
    let case = Case::map(&map);
    let fill: [fn(&mut MapJob); 4] = [
        |job| job.fringe = vec![f32::NAN; 12],
        |job| job.fringe = vec![-100.0; 12],
        |job| job.customs = vec![7; 13],
        |job| (job.fringe, job.customs) = (vec![f32::INFINITY], vec![0; 14]),
    ];
    let lines = |(at, fill): (usize, fn(&mut MapJob))| {
        let mut case = case.clone();
        fill(&mut case.job);
        assert_eq!(case.job.fault(), None);
        case.lines(case.runs(at))
    };
    fill.into_iter().enumerate().map(lines).collect()
}

/// The most cells of that rule that can be numbered, with caps and walls inset.
const MOST: usize = 1093;

/// Maps of many cells, which the program makes by a rule of its own: as many as
/// can be numbered, with one cell more, and the refusals that come first.
#[must_use]
pub fn limits() -> Vec<Lines> {
    let mut all: Vec<Lines> = [false, true]
        .map(|kept| planned(&stepped(MOST, kept)))
        .to_vec();
    let beyond = stepped(MOST + 1, true);
    let job = MapJob::from(&beyond);
    let mut unnamed = job.clone();
    (unnamed.caps, unnamed.offset) = (1, Some([f32::NAN; 3]));
    let mut far = job.clone();
    far.offset = Some([0.0, f32::INFINITY, 0.0]);
    all.extend([
        planned(&Map {
            caps: Choice::Absent,
            ..beyond.clone()
        }),
        planned(&Map {
            sides: Choice::Absent,
            ..beyond
        }),
        by_itself(&job, Fault::Limit),
        by_itself(&MapJob::from(&stepped(MOST + 1, false)), Fault::Limit),
        by_itself(&far, Fault::Range),
        by_itself(&unnamed, Fault::Shape),
    ]);
    all.into_iter().map(by_count).collect()
}

/// A map that is done and for which there is no room here.
fn planned(map: &Map) -> Lines {
    let case = Case::map(map);
    let calls = [
        Call::Plan,
        Call::Whole,
        Call::Face(1),
        Call::Face(case.faces.len()),
    ];
    case.lines(vec![case.run([64; 4], &calls), case.run([0; 4], &calls)])
}

/// The lines of a map with the count of its cells in place of the two lists
/// that the rule makes.
fn by_count(mut lines: Lines) -> Lines {
    let count = lines[0][0] / NUMBERS as u32;
    lines[0][..2].fill(0);
    lines[1].clear();
    lines[2].clear();
    lines.insert(0, vec![count]);
    lines
}
