//! Holds hexx's height maps to the written steps, bit by bit, on drawn maps
//! without a turn, and says how many differ and what the smallest of these is.
//! Then it counts what other steps would change, on the maps of the record too,
//! and tries those at the limit.

use oracle::map_cases::recorded_maps;
use oracle::map_draws::drawn_map;
use oracle::map_limits::{Limit, limits};
use oracle::map_runs::has_both_zeros;
use oracle::map_steps::{OTHER_TIME, OVER_HEXX, WRITTEN, Way, faces, joined, range, whole};
use oracle::map_words::MapJob;
use oracle::map_zeros::other_ends;
use oracle::maps::Map;
use oracle::random::Random;
use oracle::steps::Mesh;
use oracle::{arguments, line};
use std::io;

/// How many drawn maps other steps are tried on.
const TRIED: usize = 20_000;

/// How a map came out.
enum Found {
    Same,
    /// As with another sign of a zero end of the range.
    OtherZero,
    Other,
}

fn main() -> io::Result<()> {
    let (count, seed) = arguments::asked("maps")?.unwrap_or((200_000, 1));
    let mut random = Random::new(seed);
    let mut sums = Sums::default();
    for _ in 0..count {
        sums.add(drawn_map(&mut random, false));
    }
    println!("{sums}");
    let recorded = recorded_maps();
    let recorded: Vec<Map> = recorded.plain.into_iter().chain(recorded.turned).collect();
    let drawn: Vec<Map> = (0..TRIED)
        .map(|at| drawn_map(&mut random, at % 4 == 0))
        .collect();
    for (name, way) in ways() {
        let [recorded, drawn] = [&recorded, &drawn].map(|maps| told(&way, maps));
        println!("{name}: changes {recorded} of the record, {drawn} of {TRIED} drawn");
    }
    limits().iter().for_each(at_the_limit);
    Ok(())
}

/// Says of a map at the limit whether the scope's table refuses it as it should
/// and, where it does not, whether hexx's mesh is that of the steps.
fn at_the_limit(limit: &Limit) {
    let job = MapJob::from(&limit.map);
    let number = job.fault().map_or(0, |fault| fault as u32);
    let counts = [limit.vertices, limit.indices];
    let right = match number {
        0 => job.counts() == counts && is_hexxs(&limit.map, counts),
        _ => true,
    };
    let word = if right && number == limit.number {
        "as it should"
    } else {
        "otherwise"
    };
    println!("{}: {number}, {word}", limit.name);
}

fn is_hexxs(map: &Map, [vertices, indices]: [usize; 2]) -> bool {
    let mesh = whole(&WRITTEN, map);
    let counts = mesh.positions.len() == vertices && mesh.indices.len() == indices;
    counts && words(&mesh) == words(&Mesh::from(&map.hexx()))
}

/// What the maps had, and how they came out.
#[derive(Default)]
struct Sums {
    maps: usize,
    faces: usize,
    vertices: usize,
    empty: usize,
    not_a_number: usize,
    both_zeros: usize,
    /// Of these, those in which another sign of an end would show.
    telling: usize,
    /// Of these, the cells of those where hexx has the other one.
    other_zeros: Vec<usize>,
    differ: usize,
    smallest: Option<Map>,
}

impl Sums {
    fn add(&mut self, map: Map) {
        let all = faces(&WRITTEN, &map, range(&WRITTEN, &map));
        let mesh = joined(&all);
        self.maps += 1;
        self.faces += all.len();
        self.vertices += mesh.positions.len();
        self.empty += usize::from(all.is_empty());
        let mut uvs = mesh.uvs.iter().flatten();
        self.not_a_number += usize::from(uvs.any(|x| x.is_nan()));
        self.both_zeros += usize::from(has_both_zeros(&map));
        let shows = |ends| words(&with_range(&WRITTEN, &map, ends)) != words(&mesh);
        self.telling += usize::from(other_ends(&map).any(shows));
        match compared(&map) {
            Found::Same => (),
            Found::OtherZero => self.other_zeros.push(map.count()),
            Found::Other => self.differs(map),
        }
    }

    fn differs(&mut self, map: Map) {
        self.differ += 1;
        let cells = self.smallest.as_ref().map(Map::count);
        if cells.is_none_or(|cells| map.count() < cells) {
            self.smallest = Some(map);
        }
    }
}

impl std::fmt::Display for Sums {
    fn fmt(&self, f: &mut std::fmt::Formatter<'_>) -> std::fmt::Result {
        writeln!(f, "maps: tried {}, differ {}", self.maps, self.differ)?;
        writeln!(
            f,
            "{} faces of {} vertices; without a face {}; with a uv that is NaN {}",
            self.faces, self.vertices, self.empty, self.not_a_number
        )?;
        write!(
            f,
            "with heights of both zeros {}, where the sign of an end shows {}, \
             and is another in hexx {}, of cells {:?}",
            self.both_zeros,
            self.telling,
            self.other_zeros.len(),
            self.other_zeros
        )?;
        match &self.smallest {
            Some(map) => write!(f, "\nsmallest: {map:?}"),
            None => Ok(()),
        }
    }
}

/// Compares hexx's mesh with the steps over hexx's faces and over single steps.
fn compared(map: &Map) -> Found {
    let hexx = words(&Mesh::from(&map.hexx()));
    let same = |way: &Way, ends: [f32; 2]| words(&with_range(way, map, ends)) == hexx;
    let both = |ends: [f32; 2]| same(&OVER_HEXX, ends) && same(&WRITTEN, ends);
    match both(range(&WRITTEN, map)) {
        true => Found::Same,
        false if other_ends(map).any(both) => Found::OtherZero,
        false => Found::Other,
    }
}

fn with_range(way: &Way, map: &Map, ends: [f32; 2]) -> Mesh {
    joined(&faces(way, map, ends))
}

/// How many maps come out otherwise by `way`.
fn told(way: &Way, maps: &[Map]) -> usize {
    let differs = |map: &&Map| words(&whole(way, map)) != words(&whole(&OVER_HEXX, map));
    maps.iter().filter(differs).count()
}

/// All that a mesh has, all NaNs equal.
fn words(mesh: &Mesh) -> Vec<u32> {
    let threes = mesh.positions.iter().chain(&mesh.normals).flatten();
    let all = threes.chain(mesh.uvs.iter().flatten());
    let numbers = all.map(|&x| line::bits(x));
    let counts = [mesh.positions.len() as u32, mesh.normals.len() as u32];
    let indices = mesh.indices.iter().map(|&index| u32::from(index));
    counts.into_iter().chain(numbers).chain(indices).collect()
}

/// The written steps, and those that differ from them in one choice.
fn ways() -> Vec<(&'static str, Way)> {
    let is_below = |beyond: f32, own: f32| beyond <= own;
    vec![
        ("as written", WRITTEN),
        (
            "uvs altered at the other time",
            Way {
                make: OTHER_TIME,
                ..OVER_HEXX
            },
        ),
        (
            "a side where heights are equal",
            Way {
                is_below,
                ..OVER_HEXX
            },
        ),
        (
            "the neighbour of the next side",
            Way {
                turned_by: 1,
                ..OVER_HEXX
            },
        ),
        (
            "the fringe before the neighbour",
            Way {
                neighbour_first: false,
                ..OVER_HEXX
            },
        ),
        (
            "a custom 255 as the default",
            Way {
                own_is_jobs: false,
                ..OVER_HEXX
            },
        ),
        (
            "the custom option of the next face",
            Way {
                custom_at: 1,
                ..OVER_HEXX
            },
        ),
        (
            "the later of equal heights",
            Way {
                earlier: false,
                ..OVER_HEXX
            },
        ),
        (
            "a cap moved by +0 in x and z",
            Way {
                level_of_height: false,
                ..OVER_HEXX
            },
        ),
        (
            "a cap's rise added to zero first",
            Way {
                position_first: false,
                ..OVER_HEXX
            },
        ),
        (
            "a position added to sides",
            Way {
                sides_stay: false,
                ..OVER_HEXX
            },
        ),
        (
            "the scale last",
            Way {
                scale_first: false,
                ..OVER_HEXX
            },
        ),
        (
            "normals not turned",
            Way {
                turns_normals: false,
                ..OVER_HEXX
            },
        ),
        (
            "the origin joined to the offset",
            Way {
                origin_apart: false,
                ..OVER_HEXX
            },
        ),
    ]
}
