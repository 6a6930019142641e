//! How far the written steps stand from hexx's own numbers where a job has a
//! turn or a bottom. The planes and columns are those that `record-planes` and
//! `record-columns` write for the same count and seed. That the proved code
//! equals the written steps bit by bit is held on other jobs, drawn alike: by
//! `compare`, and by `replay` and `replay_maps` on what `record-jobs` writes.

use oracle::MeshInfo;
use oracle::arguments;
use oracle::builder_cases::{drawn_columns, drawn_planes};
use oracle::builders::Choice;
use oracle::distance::{Greatest, MODERATE};
use oracle::line::bits;
use oracle::map_draws::drawn_map;
use oracle::map_steps::{OVER_HEXX, magnitude, range, whole};
use oracle::maps::Map;
use oracle::random::Random;
use std::io;

fn main() -> io::Result<()> {
    let (count, seed) = arguments::asked("distances")?.unwrap_or((100_000, 1));
    let planes = drawn_planes(&mut Random::new(seed), count);
    let columns = drawn_columns(&mut Random::new(seed), count);
    let plain_planes = planes.plain.iter().map(|job| (job.hexx(), job.written()));
    println!("planes with no turn, {}", differences(plain_planes));
    let plain_columns = columns.plain.iter().map(|job| (job.hexx(), job.written()));
    println!("columns with neither, {}", differences(plain_columns));
    let mut groups = [const { [const { Greatest::NONE }; 2] }; 4];
    for job in &planes.turned {
        let most = job.magnitude();
        groups[0][usize::from(most > MODERATE)].add(&job.hexx(), &job.written(), most);
    }
    for job in &columns.turned {
        let most = job.magnitude();
        let bottom = job.bottom != Choice::Absent;
        let group = match (job.standing.turn.is_some(), bottom) {
            (true, false) => 1,
            (false, _) => 2,
            (true, true) => 3,
        };
        groups[group][usize::from(most > MODERATE)].add(&job.hexx(), &job.written(), most);
    }
    let names = [
        "planes with a turn",
        "columns with a turn",
        "columns with a bottom",
        "columns with both",
    ];
    for (name, [moderate, great]) in names.into_iter().zip(groups) {
        println!("{name}, up to {MODERATE}: {moderate}");
        println!("{name}, beyond: {great}");
    }
    maps(count, seed);
    Ok(())
}

/// The same of height maps. Each is given its range, since hexx may have
/// another sign of a zero end.
fn maps(count: usize, seed: u64) {
    let mut random = Random::new(seed);
    let mut groups = [const { Greatest::NONE }; 2];
    for _ in 0..count {
        let map = drawn_map(&mut random, true);
        let range = Some(range(&OVER_HEXX, &map));
        let map = Map { range, ..map };
        let most = magnitude(&map);
        let written = MeshInfo::from(&whole(&OVER_HEXX, &map));
        groups[usize::from(most > MODERATE)].add(&map.hexx(), &written, most);
    }
    let [moderate, great] = groups;
    println!("maps with a turn, up to {MODERATE}: {moderate}");
    println!("maps with a turn, beyond: {great}");
}

/// How many meshes differ in a bit.
fn differences(meshes: impl Iterator<Item = (MeshInfo, MeshInfo)>) -> String {
    let (mut tried, mut differ) = (0, 0);
    for (own, ours) in meshes {
        tried += 1;
        differ += usize::from(all_bits(&own) != all_bits(&ours) || own.indices != ours.indices);
    }
    format!("tried {tried}, differ {differ}")
}

/// The bits of all numbers of a mesh.
fn all_bits(mesh: &MeshInfo) -> Vec<u32> {
    let threes = mesh.vertices.iter().chain(&mesh.normals);
    let threes = threes.flat_map(|v| v.to_array());
    let twos = mesh.uvs.iter().flat_map(|v| v.to_array());
    threes.chain(twos).map(bits).collect()
}
