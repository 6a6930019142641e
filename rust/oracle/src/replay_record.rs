//! Writes the records of the programs `replay` and `replay_maps`: of each kind
//! its name, how many cases it has, and those. A case is lines of words in
//! hexadecimal digits without leading zeros, and a word that ends it. The last
//! line is `end`.

use crate::builders::{Column, Plane};
use crate::job_runs::Case;
use crate::job_words::{Lines, Words};
use crate::maps::Map;
use crate::random::Random;
use crate::{builder_cases, cases, job_faults, map_cases, map_faults, mesh_cases, value_words};
use std::io::{self, Write};

/// What ends a case.
const END: u32 = 0xe4d;

/// A program that reads a record.
#[derive(Debug, Clone, Copy, PartialEq, Eq)]
pub enum Program {
    Replay,
    ReplayMaps,
}

impl Program {
    /// The program of this name.
    #[must_use]
    pub fn named(name: &str) -> Option<Self> {
        match name {
            "replay" => Some(Self::Replay),
            "replay_maps" => Some(Self::ReplayMaps),
            _ => None,
        }
    }
}

/// Cases of every kind.
pub struct Sets {
    pub meshes: mesh_cases::Cases,
    pub faces: cases::Cases,
    pub planes: builder_cases::Cases<Plane>,
    pub columns: builder_cases::Cases<Column>,
    pub maps: builder_cases::Cases<Map>,
}

/// The cases of the record.
#[must_use]
pub fn recorded() -> Sets {
    Sets {
        meshes: mesh_cases::recorded(),
        faces: cases::recorded(),
        planes: builder_cases::recorded_planes(),
        columns: builder_cases::recorded_columns(),
        maps: map_cases::recorded_maps(),
    }
}

/// `count` cases of each part, all drawn.
pub fn drawn(random: &mut Random, count: usize) -> Sets {
    Sets {
        meshes: mesh_cases::drawn(random, count),
        faces: cases::drawn(random, count),
        planes: builder_cases::drawn_planes(random, count),
        columns: builder_cases::drawn_columns(random, count),
        maps: map_cases::drawn_maps(random, count),
    }
}

/// Writes a program's record of `sets`, and of the cases that are refused.
pub fn write(out: &mut impl Write, program: Program, sets: &Sets) -> io::Result<()> {
    match program {
        Program::Replay => {
            kind(out, "cheap", &cheap(&sets.meshes))?;
            kind(out, "planes", &planes(&sets.planes))?;
            kind(out, "columns", &columns(&sets.columns))?;
            kind(out, "merges", &value_words::merges(&sets.meshes))?;
            kind(out, "points", &value_words::points(&sets.faces))?;
            kind(out, "wraps", &value_words::wraps(&sets.faces))?;
        }
        Program::ReplayMaps => {
            kind(out, "maps", &maps(&sets.maps))?;
            kind(out, "limits", &map_faults::limits())?;
            kind(out, "stored", &value_words::stored(&sets.meshes))?;
        }
    }
    writeln!(out, "end")
}

/// The cases of the height maps.
#[must_use]
pub fn maps(cases: &builder_cases::Cases<Map>) -> Vec<Lines> {
    let all = cases.plain.iter().chain(&cases.turned);
    let mut all = done(all.map(Case::map));
    all.extend(map_faults::maps());
    all
}

fn kind(out: &mut impl Write, name: &str, cases: &[Lines]) -> io::Result<()> {
    writeln!(out, "{name:<9}{:x}", cases.len())?;
    for case in cases {
        let words = case.iter().filter(|words| !words.is_empty());
        words.into_iter().try_for_each(|words| line(out, words))?;
        line(out, &[END])?;
    }
    Ok(())
}

fn line(out: &mut impl Write, words: &[u32]) -> io::Result<()> {
    let text: Vec<String> = words.iter().map(|word| format!("{word:x}")).collect();
    writeln!(out, "{}", text.join(" "))
}

/// The lines of each case that is done.
fn done<J: Words>(cases: impl Iterator<Item = Case<J>>) -> Vec<Lines> {
    let lines = |(at, case): (usize, Case<J>)| case.lines(case.runs(at));
    cases.enumerate().map(lines).collect()
}

fn cheap(cases: &mesh_cases::Cases) -> Vec<Lines> {
    let mut all = done(cases.columns.iter().map(Case::from));
    all.extend(job_faults::cheap());
    all
}

fn planes(cases: &builder_cases::Cases<Plane>) -> Vec<Lines> {
    let plain = cases.plain.iter();
    let plain = plain.map(|case| Case::plane(case, &case.hexx()));
    let turned = cases.turned.iter();
    let turned = turned.map(|case| Case::plane(case, &case.written()));
    let mut all = done(plain.chain(turned));
    all.extend(job_faults::planes());
    all
}

fn columns(cases: &builder_cases::Cases<Column>) -> Vec<Lines> {
    let plain = cases.plain.iter();
    let plain = plain.map(|case| Case::column(case, &case.hexx()));
    let turned = cases.turned.iter();
    let turned = turned.map(|case| Case::column(case, &case.written()));
    let mut all = done(plain.chain(turned));
    all.extend(job_faults::columns());
    all
}
