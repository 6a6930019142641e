//! Height maps: whole builds beside hexx's, and single faces beside hexx's
//! whole build of the same map.

use crate::hills::{Asked, Builder, Way, again, hills, ways};
use crate::rows::{Headed, Rows, Sides, copy, least};
use hosirekar::{HeightMap, Job as _};
use hosirekar_sys::{CAnswer, CHeightMap};
use oracle::buffers::{Buffers, Counts, Lent};
use oracle::map_calls;
use oracle::maps::Map;
use oracle::ours::{Call, Job};
use oracle::random::Random;
use oracle::safe::{Safe, lists};
use std::hint::black_box;

/// What goes over of a map, made before the clock starts.
pub struct Given {
    job: CHeightMap,
    call: Call,
}

impl Given {
    pub fn of(map: &Map) -> Self {
        Self {
            job: map.given(),
            call: map.call(),
        }
    }

    /// The counts of the plan, which must be done.
    pub fn counts(&self) -> Counts {
        let CAnswer {
            number,
            vertices,
            indices,
            ..
        } = map_calls::plan(self.job, &self.call);
        assert_eq!(number, 0, "the map is refused");
        Counts { vertices, indices }
    }

    pub fn plan(&self) {
        black_box(map_calls::plan(self.job, &self.call));
    }

    /// Why a side of a cell is there or missing.
    pub fn why(&self, cell: usize, side: usize) {
        let told = map_calls::why(self.job, &self.call, cell, side);
        assert_eq!(told.answer.number, 0);
    }

    /// What a number stands for.
    pub fn which(&self, face: usize) {
        let told = map_calls::which(self.job, &self.call, face);
        assert_eq!(told.answer.number, 0);
    }

    pub fn build(&self, to: Lent) {
        let floats = [to.vertices, to.normals, to.uvs];
        let answer = map_calls::build(self.job, &self.call, floats, to.indices);
        assert_eq!(answer.number, 0);
    }

    pub fn face(&self, face: usize, to: Lent) {
        let floats = [to.vertices, to.normals, to.uvs];
        let answer = map_calls::face(self.job, &self.call, face, floats, to.indices);
        assert_eq!(answer.number, 0);
    }
}

/// What is timed is the same mesh: the safe crate's bit by bit, and hexx's, or
/// its counts where there is a turn.
fn assert_same(map: &Map) {
    let mesh = map.hexx();
    let counts = Counts::of(&mesh);
    let given = Given::of(map);
    assert_eq!(given.counts(), counts, "hexx has other counts");
    let mut ours = Buffers::marked(counts.lengths());
    let mut wanted = ours.clone();
    given.build(ours.lent());
    let safe = lists(map.safe().build().expect("a map that is taken"));
    assert_eq!(
        safe.lengths(),
        counts.lengths(),
        "the safe crate has other counts"
    );
    assert_eq!(
        safe.difference(&ours),
        None,
        "the safe crate has another mesh"
    );
    wanted.lay(&mesh, Counts::default(), counts);
    if map.turn.is_none() {
        assert_eq!(ours.difference(&wanted), None, "hexx has another mesh");
    }
}

/// How many maps make a set, and how far they reach.
fn sets(way: &Way) -> [(usize, i32); 3] {
    [(200, 1), (16, 5), (1, way.radius)]
}

/// Whole builds.
pub fn whole(rows: &Rows) {
    let random = &mut Random::new(2);
    for way in ways() {
        for (count, radius) in sets(&way) {
            let maps: Vec<Map> = (0..count).map(|_| hills(&way, radius, random)).collect();
            maps.iter().for_each(assert_same);
            set(rows, &way, &maps);
        }
    }
}

/// Room for the greatest of some meshes.
fn room(all: &[Counts]) -> Buffers {
    let most = |of: fn(&Counts) -> usize| all.iter().map(of).max().unwrap_or(0);
    let counts = Counts {
        vertices: most(|counts| counts.vertices),
        indices: most(|counts| counts.indices),
    };
    Buffers::marked(counts.lengths())
}

/// A set of maps with as many cells.
fn set(rows: &Rows, way: &Way, maps: &[Map]) {
    let asked: Vec<Asked> = maps.iter().map(Asked::of).collect();
    let both = maps.iter().zip(&asked);
    let builders: Vec<Builder> = both.map(|(map, asked)| asked.builder(map)).collect();
    let given: Vec<Given> = maps.iter().map(Given::of).collect();
    let safe: Vec<HeightMap> = maps.iter().map(Safe::safe).collect();
    let counts: Vec<Counts> = given.iter().map(Given::counts).collect();
    let mut lent = room(&counts);
    let lists = |counts: &Counts| Buffers::marked(counts.lengths());
    let from: Vec<Buffers> = counts.iter().map(lists).collect();
    let mut to = from.clone();
    let vertices: usize = counts.iter().map(|counts| counts.vertices).sum();
    let sides = Sides {
        vertices,
        hexx: &mut || {
            for builder in &builders {
                black_box(again(black_box(builder)).build());
            }
        },
        lent: &mut || {
            for given in &given {
                black_box(given).build(lent.lent());
                black_box(&mut lent);
            }
        },
        new: Some(&mut || {
            for map in &safe {
                let built = black_box(map).build();
                assert!(black_box(&built).is_ok());
            }
        }),
        copy: &mut || {
            let both = from.iter().zip(&mut to);
            both.for_each(|(from, to)| copy(black_box(from), to));
        },
    };
    let each = vertices / maps.len();
    let job = format!("maps of {} cells, {each} vertices", maps[0].count());
    rows.tell(sides, &job, way.name);
}

/// The first, the middle and the last face of the greatest maps.
pub fn faces(rows: &Rows) {
    let mut table = Headed::by(&[
        "one face",
        "options",
        "hexx's whole build, µs",
        "face, µs",
        "ratio",
    ]);
    let random = &mut Random::new(3);
    for way in ways() {
        let map = hills(&way, way.radius, random);
        let last = map.face_counts().len() - 1;
        for (name, face) in [("first", 0), ("middle", last / 2), ("last", last)] {
            let name = format!("{name} face of {} cells, {}", map.count(), last + 1);
            if rows.has(&format!("{name}, {}", way.name)) {
                let [hexx, ours] = face_beside_hexx(&map, face);
                let ratio = ours / hexx;
                let way = way.name;
                table.row(&format!(
                    "| {name} | {way} | {hexx:.1} | {ours:.2} | {ratio:.4} |"
                ));
            }
        }
    }
}

/// Microseconds of hexx's whole build and of one face of ours.
fn face_beside_hexx(map: &Map, face: usize) -> [f64; 2] {
    let asked = Asked::of(map);
    let builder = asked.builder(map);
    let given = Given::of(map);
    let mut lent = Buffers::marked(given.counts().lengths());
    let mut hexx = || {
        black_box(again(black_box(&builder)).build());
    };
    let mut ours = || {
        black_box(&given).face(black_box(face), lent.lent());
        black_box(&mut lent);
    };
    let times = least(&mut [&mut hexx, &mut ours]);
    [times[0] * 1e6, times[1] * 1e6]
}
