//! Runs drawn jobs and those of the records through our own code and through
//! hexx's, and says how many differ. Those with a turn or a bottom are held to
//! the written steps; `distances` says how far these are from hexx.

use oracle::builders::Column;
use oracle::compare::{Tally, job};
use oracle::differences;
use oracle::limits::{self, Limits};
use oracle::map_compare::{self, Maps};
use oracle::map_fills::{self, Fills};
use oracle::mesh_cases::{Cases, Merge};
use oracle::ours::Job;
use oracle::random::Random;
use oracle::safe::Safe;
use oracle::stored::{Change, centroids, change, merge};
use oracle::{builder_cases, map_cases, mesh_cases};
use std::process::ExitCode;
use std::time::Instant;

/// Of so many drawn maps one more is great.
const GREAT: u64 = 2_000;

/// What is asked for.
struct Asked {
    /// Drawn jobs of each kind.
    count: u64,
    seed: u64,
    /// Of the jobs about the limit, each how manieth is tried.
    step: usize,
    /// Whether height maps alone are tried.
    maps: bool,
}

fn asked() -> Option<Asked> {
    let arguments: Vec<String> = std::env::args().skip(1).collect();
    let maps = arguments.first().is_some_and(|word| word == "maps");
    match &arguments[usize::from(maps)..] {
        [short] if short == "short" => Some(Asked {
            count: 2_000,
            seed: 1,
            step: 17,
            maps,
        }),
        [count, seed] => Some(Asked {
            count: count.parse().ok()?,
            seed: seed.parse().ok()?,
            step: 1,
            maps,
        }),
        _ => None,
    }
}

fn main() -> ExitCode {
    let Some(asked) = asked() else {
        eprintln!("compare [maps] short | count seed");
        return ExitCode::from(2);
    };
    eprintln!("made with {}", oracle::MADE_WITH);
    let began = Instant::now();
    let mut differ = match asked.maps {
        true => 0,
        false => all_but_maps(&asked),
    };
    differ += maps(&asked);
    differ += told(
        "where hexx panics, wraps or takes more",
        &differences::all(),
    );
    println!("{differ} differ, {:.0} s", began.elapsed().as_secs_f64());
    ExitCode::from(u8::from(differ > 0))
}

fn all_but_maps(
    &Asked {
        count, seed, step, ..
    }: &Asked,
) -> u64 {
    let mut differ = recorded();
    differ += drawn("planes", count, seed, |random| {
        job(&builder_cases::drawn_plane(random, false), random)
    });
    differ += drawn("columns", count, seed, |random| {
        job(&some_column(random), random)
    });
    differ += drawn("cheap columns", count, seed, |random| {
        job(&mesh_cases::drawn_column(random), random)
    });
    differ += drawn("merges", count, seed, |random| {
        merge(&mesh_cases::drawn_merge(random), random)
    });
    differ += drawn("merges of builds", count / 4, seed, |random| {
        merge(&built(random), random)
    });
    differ += drawn("stored meshes", count, seed, stored);
    differ += about_the_limit(&limits::all(step, &mut Random::new(seed)));
    println!("held to the written steps, not to hexx:");
    differ += drawn("planes with a turn", count / 4, seed, |random| {
        job(&builder_cases::drawn_plane(random, true), random)
    });
    let name = "columns with a turn or a bottom";
    differ
        + drawn(name, count / 4, seed, |random| {
            job(&builder_cases::drawn_column(random, true), random)
        })
}

/// Writes a line, with what the first one shows that differs.
fn told(name: &str, tally: &Tally) -> u64 {
    println!("{name}: {} tried, {} differ", tally.tried, tally.differ);
    if let Some(first) = &tally.first {
        println!("  first: {first}");
    }
    tally.differ
}

fn drawn(
    name: &str,
    count: u64,
    seed: u64,
    mut one: impl FnMut(&mut Random) -> Result<(), String>,
) -> u64 {
    let mut random = Random::new(seed);
    let mut tally = Tally::default();
    (0..count).for_each(|_| tally.add(one(&mut random)));
    told(name, &tally)
}

/// The jobs and the stored meshes of the records.
fn recorded() -> u64 {
    fn jobs(name: &str, jobs: &[impl Job + Safe], random: &mut Random) -> u64 {
        let mut tally = Tally::default();
        jobs.iter().for_each(|one| tally.add(job(one, random)));
        told(name, &tally)
    }
    let random = &mut Random::new(0x7265_636f);
    let planes = builder_cases::recorded_planes().plain;
    let columns = builder_cases::recorded_columns().plain;
    let meshes = mesh_cases::recorded();
    jobs("planes of the record", &planes, random)
        + jobs("columns of the record", &columns, random)
        + jobs("cheap columns of the record", &meshes.columns, random)
        + recorded_meshes(&meshes, random)
}

fn recorded_meshes(cases: &Cases, random: &mut Random) -> u64 {
    let mut tally = Tally::default();
    for (by, mesh) in &cases.scales {
        tally.add(change(Change::Scale(*by), mesh, random));
    }
    for (by, mesh) in &cases.offsets {
        tally.add(change(Change::Offset(*by), mesh, random));
    }
    for (by, mesh) in &cases.uv_scales {
        tally.add(change(Change::TextureScale(*by), mesh, random));
    }
    for mesh in cases.means.iter().chain(&cases.uv_means) {
        tally.add(centroids(mesh, random));
    }
    for case in &cases.merges {
        tally.add(merge(case, random));
    }
    told("stored meshes and merges of the record", &tally)
}

/// Maps of the record, drawn ones of at most 40 cells, great ones, and those
/// about the limit.
fn maps(
    &Asked {
        count, seed, step, ..
    }: &Asked,
) -> u64 {
    let random = &mut Random::new(seed);
    let recorded = map_cases::recorded_maps();
    let name = "maps of the record";
    let mut differ = told_maps(name, &map_compare::given(&recorded.plain, random));
    differ += told_maps("maps", &map_compare::small(count, false, random));
    let great = map_compare::great(count.div_ceil(GREAT), step == 1, random);
    differ += told_maps("great maps", &great);
    let zeros = map_compare::of_zeros(count / 4, random);
    differ += told_maps("maps with a range that begins with a zero", &zeros);
    differ += maps_about_the_limit(&map_fills::all(step, random));
    println!("held to the written steps, not to hexx:");
    let name = "maps of the record with a turn";
    differ += told_maps(name, &map_compare::given(&recorded.turned, random));
    let turned = map_compare::small(count / 4, true, random);
    differ + told_maps("maps with a turn", &turned)
}

fn told_maps(name: &str, maps: &Maps) -> u64 {
    let differ = told(name, &maps.tally);
    println!("{maps}");
    differ
}

fn maps_about_the_limit(fills: &Fills) -> u64 {
    let differ = told("greatest maps that are taken", &fills.taken)
        + told("maps with a cell more", &fills.refused);
    println!("  {} times 65536 vertices", fills.exact);
    differ
}

/// A drawn column, now and then of many parts.
fn some_column(random: &mut Random) -> Column {
    let column = builder_cases::drawn_column(random, false);
    match random.once_in(256) {
        true => Column {
            subdivisions: Some(random.below(41)),
            ..column
        },
        false => column,
    }
}

/// A column put behind a plane or another column.
fn built(random: &mut Random) -> Merge {
    let source = builder_cases::drawn_column(random, false).hexx();
    let target = match random.once_in(2) {
        true => builder_cases::drawn_plane(random, false).hexx(),
        false => builder_cases::drawn_column(random, false).hexx(),
    };
    Merge { source, target }
}

/// One of the five calls on a stored mesh.
fn stored(random: &mut Random) -> Result<(), String> {
    let (three, mesh) = mesh_cases::drawn_move(random);
    let (two, other) = mesh_cases::drawn_uv_scale(random);
    match random.below(4) {
        0 => change(Change::Scale(three), &mesh, random),
        1 => change(Change::Offset(three), &mesh, random),
        2 => change(Change::TextureScale(two), &other, random),
        _ => centroids(&mesh_cases::drawn_mean(random), random),
    }
}

fn about_the_limit(limits: &Limits) -> u64 {
    let Limits {
        taken,
        bottoms,
        refused,
        merges,
        most,
        fewest,
        exact,
    } = limits;
    let differ = told("greatest columns that are taken", taken)
        + told("of those with a bottom, held to the written steps", bottoms)
        + told("columns with a part more", refused)
        + told("merges about the limit", merges);
    println!("  vertices from {fewest} to {most}, {exact} times {most}");
    differ
}
