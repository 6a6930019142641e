//! Jobs whose vertices are just few enough to be numbered, held to hexx's, and
//! those with one part more, which hexx is not asked for: it would panic, or
//! number some vertex anew.

use crate::buffers::{Buffers, Counts};
use crate::builder_cases::ends_of;
use crate::builders::{Choice, Column, Standing};
use crate::cases::inset;
use crate::compare::{Tally, Trial, done, hold, hold_buffers, refused};
use crate::mesh_cases::Merge;
use crate::ours::Job;
use crate::random::Random;
use crate::safe::Safe;
use crate::safe_calls;
use crate::shapes::regular_hexagons;
use crate::stored;
use crate::{FaceOptions, InsetScaleMode, MeshInfo, UVOptions};
use glam::{Vec2, Vec3, vec2, vec3};

/// The most vertices of a mesh.
pub const VERTICES: usize = 65_536;

/// What was tried about the limit.
#[derive(Debug, Default)]
pub struct Limits {
    /// The greatest that are taken, with no bottom.
    pub taken: Tally,
    /// Those with a bottom.
    pub bottoms: Tally,
    /// The least that are not.
    pub refused: Tally,
    /// Merges up to the limit and beyond.
    pub merges: Tally,
    /// The most and the fewest vertices among those taken that have a side.
    pub most: usize,
    pub fewest: usize,
    /// How many have exactly as many vertices as can be numbered.
    pub exact: usize,
}

/// Every set of sides, each with no top, a plain one and an inset one, the same
/// of the bottom, and with sides of the default, of a centroid inset, of a
/// smallest-edge inset and mixed; every `step`th of them.
#[must_use]
pub fn all(step: usize, random: &mut Random) -> Limits {
    let mut limits = Limits {
        fewest: usize::MAX,
        ..Limits::default()
    };
    for number in (0..64 * 3 * 4 * 3).step_by(step) {
        let column = column(number);
        let each = Each::of(&column);
        let tally = match column.bottom {
            Choice::Absent => &mut limits.taken,
            _ => &mut limits.bottoms,
        };
        let Some(parts) = (VERTICES - each.cap).checked_div(each.part) else {
            // Without sides, no number of parts is too great.
            for parts in [0, 1, 65_537, u32::MAX] {
                tally.add(taken(&with_parts(&column, parts), false, random));
            }
            continue;
        };
        let greatest = with_parts(&column, parts as u32);
        let vertices = each.cap + parts * each.part;
        limits.most = limits.most.max(vertices);
        limits.fewest = limits.fewest.min(vertices);
        limits.exact += usize::from(vertices == VERTICES);
        tally.add(taken(&greatest, number.is_multiple_of(7), random));
        let above = [parts as u32 + 1, parts as u32 + 2, 1 << 30, u32::MAX];
        for parts in above {
            let column = with_parts(&column, parts);
            limits.refused.add(refused_everywhere(&column, 4));
        }
    }
    merges(&mut limits.merges, random);
    limits
}

/// The vertices of one part of all sides, and those of the caps.
struct Each {
    part: usize,
    cap: usize,
}

impl Each {
    fn of(column: &Column) -> Self {
        let vertices = |column: &Column| -> usize {
            let faces = with_parts(column, 1).face_counts();
            faces.iter().map(|face| face.vertices).sum()
        };
        let cap = vertices(&Column {
            sides: [Choice::Absent; 6],
            ..column.clone()
        });
        let part = vertices(column) - cap;
        Self { part, cap }
    }
}

fn with_parts(column: &Column, parts: u32) -> Column {
    Column {
        subdivisions: Some(parts),
        ..column.clone()
    }
}

fn column(number: usize) -> Column {
    let (set, top) = (number % 64, number / 64 % 3);
    let (sides, bottom) = (number / 192 % 4, number / 768);
    let options = |inset| FaceOptions {
        uv: UVOptions::new(),
        insetting: Some(inset),
    };
    let choice = |side: usize| match (sides, side % 3) {
        (0, _) | (3, 0) => Choice::Default,
        (1, _) | (3, 1) => Choice::Entry(0),
        _ => Choice::Entry(1),
    };
    let corners = regular_hexagons()[number % 12];
    Column {
        ends: ends_of(corners),
        corners,
        height: [7.3, -1000.25, 0.1][number % 3],
        subdivisions: None,
        sides: std::array::from_fn(|side| match set >> side & 1 {
            1 => choice(side),
            _ => Choice::Absent,
        }),
        top: [Choice::Absent, Choice::Default, Choice::Entry(1)][top],
        bottom: [Choice::Absent, Choice::Default, Choice::Entry(0)][bottom],
        options: vec![
            options(inset(
                InsetScaleMode::Centroid,
                0.3,
                number.is_multiple_of(2),
            )),
            options(inset(InsetScaleMode::SmallestEdge, -0.2, number % 4 < 2)),
        ],
        standing: Standing {
            position: vec2(17.3, -4.25),
            centred: false,
            scale: number.is_multiple_of(5).then_some(vec3(1.5, 0.7, -2.1)),
            turn: None,
            offset: number.is_multiple_of(3).then_some(vec3(0.1, -3.3, 1e-3)),
        },
    }
}

/// Held to hexx's: the plan, the build, short buffers, single faces each on
/// buffers of its own, and where it is asked for all faces in any order.
fn taken(job: &Column, by_faces: bool, random: &mut Random) -> Result<(), String> {
    let trial = Trial::new(job, random);
    let all = trial
        .plan()
        .and_then(|()| trial.whole())
        .and_then(|()| safe_calls::whole(&job.safe(), &trial.mesh))
        .and_then(|()| trial.short(random))
        .and_then(|()| alone(&trial, random))
        .and_then(|()| match by_faces {
            true => trial.by_faces(false, random),
            false => Ok(()),
        });
    all.map_err(|what| format!("{what}\n{job:?}"))
}

/// The first, the last and some face, each on buffers of its own.
pub fn alone(trial: &Trial, random: &mut Random) -> Result<(), String> {
    let Some(last) = trial.faces().checked_sub(1) else {
        return Ok(());
    };
    for face in [0, random.below(last as u32 + 1) as usize, last] {
        let mut wanted = Buffers::marked(trial.lengths);
        let mut buffers = wanted.clone();
        let answer = trial.call.face(face, buffers.lent());
        hold("face", answer, done(Counts::of(&trial.mesh)))?;
        wanted.lay(&trial.mesh, trial.starts[face], trial.starts[face + 1]);
        hold_buffers("face", &buffers, &wanted)?;
    }
    Ok(())
}

/// Refused with this number, whatever the buffers and the face.
pub fn refused_everywhere(job: &impl Job, number: u32) -> Result<(), String> {
    let call = job.call();
    hold("refused plan", call.plan(), refused(number))?;
    for lengths in [[64; 4], [0; 4]] {
        let untouched = Buffers::marked(lengths);
        let mut buffers = untouched.clone();
        let answer = call.build(buffers.lent());
        hold("refused build", answer, refused(number))?;
        for face in [0, 65_536, usize::MAX] {
            let answer = call.face(face, buffers.lent());
            hold("refused face", answer, refused(number))?;
        }
        hold_buffers("refused", &buffers, &untouched)?;
    }
    Ok(())
}

fn merges(tally: &mut Tally, random: &mut Random) {
    let indices = |count: usize| match count {
        0 => Vec::new(),
        _ => vec![0, (count - 1) as u16, (count / 2) as u16],
    };
    let mesh = |count: usize| MeshInfo {
        vertices: vec![Vec3::splat(count as f32); count],
        normals: vec![Vec3::Y; count],
        uvs: vec![Vec2::splat(0.5); count],
        indices: indices(count),
    };
    let pairs = [
        (0, 65_535),
        (1, 65_535),
        (1, 65_534),
        (65_536, 0),
        (65_535, 1),
        (32_768, 32_768),
        (2, 65_535),
        (65_536, 1),
        (32_769, 32_768),
        (1, 65_536),
    ];
    for (source, target) in pairs {
        let case = Merge {
            source: mesh(source),
            target: mesh(target),
        };
        tally.add(match source + target <= VERTICES {
            true => stored::merge(&case, random),
            false => stored::merge_too_many(&case, random),
        });
    }
}
