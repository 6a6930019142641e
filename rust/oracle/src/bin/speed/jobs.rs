//! Planes, columns and cheap columns, whole and by single faces.

use crate::rows::{Rows, Sides, copy};
use glam::{Vec2, vec2};
use hosirekar::Job as _;
use hosirekar_sys::{self as sys, CAnswer, CCheapColumn, CColumn, CPlane};
use oracle::answers::{QuadCase, When, quad};
use oracle::buffers::{Buffers, Counts, Lent};
use oracle::builder_cases::ends_of;
use oracle::builders::{Choice, Column, Plane, Standing};
use oracle::mesh_cases::Column as CheapColumn;
use oracle::numbers::within;
use oracle::ours::{Call, Job, Kind};
use oracle::random::Random;
use oracle::safe::Safe;
use oracle::shapes::stretched;
use oracle::{FaceOptions, Hex, InsetOptions, InsetScaleMode, MeshInfo, UVOptions};
use std::hint::black_box;

/// How many small jobs make a set.
const SET: usize = 1_000;

/// What is done to every face of a job.
#[derive(Clone, Copy)]
struct Way {
    name: &'static str,
    options: Option<FaceOptions>,
    /// The parts of a side with which a great column is nearly full.
    parts: u32,
}

fn ways() -> [Way; 4] {
    let inset = |mode| InsetOptions {
        keep_inner_face: true,
        scale: 0.2,
        mode,
    };
    let way = |uv, insetting| Some(FaceOptions { uv, insetting });
    let rectangle = UVOptions::new().with_rect(vec2(0.25, 0.1), vec2(0.5, 0.7));
    let plain = UVOptions::new();
    let named = |name, options, parts| Way {
        name,
        options,
        parts,
    };
    [
        named("default", None, 2700),
        named("rectangle", way(rectangle, None), 2700),
        named(
            "centroid",
            way(plain, Some(inset(InsetScaleMode::Centroid))),
            1350,
        ),
        named(
            "edge",
            way(plain, Some(inset(InsetScaleMode::SmallestEdge))),
            1350,
        ),
    ]
}

impl Way {
    fn table(self) -> Vec<FaceOptions> {
        self.options.into_iter().collect()
    }

    fn choice(self) -> Choice {
        self.options.map_or(Choice::Default, |_| Choice::Entry(0))
    }

    fn face(self) -> FaceOptions {
        self.options.unwrap_or_default()
    }
}

fn hexagon(random: &mut Random) -> [Vec2; 6] {
    let by = vec2(1.0 + within(random, 0.5), 1.0 + within(random, 0.5));
    stretched(random.once_in(2), by)
}

fn standing(random: &mut Random) -> Standing {
    Standing {
        position: vec2(within(random, 100.0), within(random, 100.0)),
        centred: false,
        scale: None,
        turn: None,
        offset: None,
    }
}

fn column(way: Way, subdivisions: Option<u32>, random: &mut Random) -> Column {
    let corners = hexagon(random);
    Column {
        ends: ends_of(corners),
        corners,
        height: 1.0 + within(random, 0.9),
        subdivisions,
        sides: [way.choice(); 6],
        top: way.choice(),
        bottom: Choice::Absent,
        options: way.table(),
        standing: standing(random),
    }
}

fn plane(way: Way, random: &mut Random) -> Plane {
    Plane {
        corners: hexagon(random),
        choice: way.choice(),
        options: way.table(),
        standing: standing(random),
    }
}

fn cheap(random: &mut Random) -> CheapColumn {
    let centre = standing(random).position;
    CheapColumn {
        corners: hexagon(random).map(|corner| corner + centre),
        centre,
        height: 1.0 + within(random, 0.9),
    }
}

/// The options of a set, in the two lists that all its jobs are lent.
struct Table {
    numbers: Vec<f32>,
    marks: Vec<u8>,
}

/// A job whose whole build of ours is called by its own name, as hexx's is. A
/// `Call` would look each time which kind of job it has.
trait Ours: Job + Safe {
    /// What goes over, made before the clock starts.
    type Given;
    fn given(&self) -> Self::Given;
    fn build(given: &Self::Given, table: &Table, to: Lent) -> CAnswer;
}

/// The numbers of six corners, or of six pairs of them, as they go over.
fn listed<const N: usize>(list: Vec<f32>) -> [f32; N] {
    list.try_into().expect("a hexagon's numbers")
}

struct GivenPlane {
    job: CPlane,
    corners: [f32; 12],
}

impl Ours for Plane {
    type Given = GivenPlane;

    fn given(&self) -> GivenPlane {
        let call = self.call();
        let Kind::Plane(job) = call.kind else {
            unreachable!("a plane is called as one")
        };
        GivenPlane {
            job,
            corners: listed(call.corners),
        }
    }

    fn build(given: &GivenPlane, Table { numbers, marks }: &Table, to: Lent) -> CAnswer {
        let (v, n, u, i) = (to.vertices, to.normals, to.uvs, to.indices);
        sys::hosirekar_plane_build(given.job, &given.corners, numbers, marks, v, n, u, i)
    }
}

struct GivenColumn {
    job: CColumn,
    pairs: [f32; 24],
    corners: [f32; 12],
}

impl Ours for Column {
    type Given = GivenColumn;

    fn given(&self) -> GivenColumn {
        let call = self.call();
        let Kind::Column(job) = call.kind else {
            unreachable!("a column is called as one")
        };
        GivenColumn {
            job,
            pairs: listed(call.pairs),
            corners: listed(call.corners),
        }
    }

    fn build(given: &GivenColumn, Table { numbers, marks }: &Table, to: Lent) -> CAnswer {
        let (v, n, u, i) = (to.vertices, to.normals, to.uvs, to.indices);
        let (pairs, corners) = (&given.pairs, &given.corners);
        sys::hosirekar_column_build(given.job, pairs, corners, numbers, marks, v, n, u, i)
    }
}

struct GivenCheap {
    job: CCheapColumn,
    corners: [f32; 12],
}

impl Ours for CheapColumn {
    type Given = GivenCheap;

    fn given(&self) -> GivenCheap {
        let call = self.call();
        let Kind::Cheap(job) = call.kind else {
            unreachable!("a cheap column is called as one")
        };
        GivenCheap {
            job,
            corners: listed(call.corners),
        }
    }

    fn build(given: &GivenCheap, _: &Table, to: Lent) -> CAnswer {
        let (v, n, u, i) = (to.vertices, to.normals, to.uvs, to.indices);
        sys::hosirekar_cheap_column_build(given.job, &given.corners, v, n, u, i)
    }
}

/// Whole builds of some jobs of the same counts; `hexx` builds the numbered one.
fn whole<J: Ours>(
    rows: &Rows,
    [name, way]: [&str; 2],
    jobs: &[J],
    mut hexx: impl FnMut(usize) -> MeshInfo,
) {
    let counts = Counts::of(&hexx(0));
    let Call { numbers, marks, .. } = jobs[0].call();
    let table = Table { numbers, marks };
    let given: Vec<J::Given> = jobs.iter().map(J::given).collect();
    let safe: Vec<J::Job> = jobs.iter().map(Safe::safe).collect();
    let mut lent = Buffers::marked(counts.lengths());
    let from = Buffers::marked(counts.lengths());
    let mut to = from.clone();
    let sides = Sides {
        vertices: counts.vertices * jobs.len(),
        hexx: &mut || {
            for job in 0..jobs.len() {
                black_box(hexx(job));
            }
        },
        lent: &mut || {
            for given in &given {
                assert_eq!(J::build(black_box(given), &table, lent.lent()).number, 0);
                black_box(&mut lent);
            }
        },
        new: Some(&mut || {
            for job in &safe {
                let built = black_box(job).build();
                assert!(black_box(&built).is_ok());
            }
        }),
        copy: &mut || jobs.iter().for_each(|_| copy(black_box(&from), &mut to)),
    };
    let job = format!("{name}, {} vertices", counts.vertices);
    rows.tell(sides, &job, way);
}

/// Single faces: the numbered one of each column, and hexx's same face alone.
fn faces(
    rows: &Rows,
    name: &str,
    way: Way,
    columns: &[Column],
    face: usize,
    hexx: impl Fn(&Column) -> MeshInfo,
) {
    let counts = Counts::of(&hexx(&columns[0]));
    let calls: Vec<Call> = columns.iter().map(Job::call).collect();
    let plan = calls[0].plan();
    let all = Counts {
        vertices: plan.vertices,
        indices: plan.indices,
    };
    let mut lent = Buffers::marked(all.lengths());
    let from = Buffers::marked(counts.lengths());
    let mut to = from.clone();
    let sides = Sides {
        vertices: counts.vertices * columns.len(),
        hexx: &mut || {
            for column in columns {
                black_box(hexx(black_box(column)));
            }
        },
        lent: &mut || {
            for call in &calls {
                assert_eq!(black_box(call).face(face, lent.lent()).number, 0);
                black_box(&mut lent);
            }
        },
        new: None,
        copy: &mut || columns.iter().for_each(|_| copy(black_box(&from), &mut to)),
    };
    rows.tell(sides, name, way.name);
}

/// hexx's lowest part of side 3, by itself and not placed.
fn part(column: &Column, options: FaceOptions) -> MeshInfo {
    let delta = column.height / column.parts() as f32;
    quad(&QuadCase {
        sides: column.ends[3],
        heights: [0.0, delta],
        range: None,
        options,
        when: When::Before,
    })
}

fn great_columns(rows: &Rows, random: &mut Random) {
    for way in ways() {
        let great = [column(way, Some(way.parts), random)];
        let layout = great[0].layout();
        let builder = great[0].builder(&layout);
        whole(rows, ["a great column", way.name], &great, |_| {
            builder.clone().build()
        });
    }
}

fn small_columns(rows: &Rows, random: &mut Random) {
    for way in ways() {
        let small: Vec<Column> = (0..SET).map(|_| column(way, None, random)).collect();
        let layouts: Vec<_> = small.iter().map(Column::layout).collect();
        let both = small.iter().zip(&layouts);
        let builders: Vec<_> = both.map(|(job, layout)| job.builder(layout)).collect();
        whole(rows, ["a small column", way.name], &small, |at| {
            builders[at].clone().build()
        });
    }
}

fn planes(rows: &Rows, random: &mut Random) {
    for way in ways() {
        let planes: Vec<Plane> = (0..SET).map(|_| plane(way, random)).collect();
        let layouts: Vec<_> = planes.iter().map(Plane::layout).collect();
        let both = planes.iter().zip(&layouts);
        let builders: Vec<_> = both.map(|(job, layout)| job.builder(layout)).collect();
        whole(rows, ["a plane", way.name], &planes, |at| {
            builders[at].clone().build()
        });
    }
}

fn cheap_columns(rows: &Rows, random: &mut Random) {
    let columns: Vec<CheapColumn> = (0..SET).map(|_| cheap(random)).collect();
    let layouts: Vec<_> = columns.iter().map(CheapColumn::layout).collect();
    whole(rows, ["a cheap column", ""], &columns, |at| {
        MeshInfo::cheap_hexagonal_column(&layouts[at], Hex::ZERO, columns[at].height)
    });
}

fn single_faces(rows: &Rows, random: &mut Random) {
    for way in ways() {
        for (name, parts) in [
            ("one side of a small column", None),
            ("one part of a great column", Some(way.parts)),
        ] {
            let columns: Vec<Column> = (0..SET).map(|_| column(way, parts, random)).collect();
            // The lowest part of side 3.
            let number = 3 * columns[0].parts() as usize;
            faces(rows, name, way, &columns, number, |column| {
                part(column, way.face())
            });
        }
    }
}

/// All rows of these kinds that are asked for.
pub fn tell(rows: &Rows) {
    println!("| job | options | hexx | ours, lent | ratio | ours, new | ratio | copy |");
    println!("|---|---|---|---|---|---|---|---|");
    let random = &mut Random::new(1);
    if rows.of("columns") {
        great_columns(rows, random);
        small_columns(rows, random);
    }
    if rows.of("planes") {
        planes(rows, random);
    }
    if rows.of("cheap") {
        cheap_columns(rows, random);
    }
    if rows.of("faces") {
        single_faces(rows, random);
    }
}
