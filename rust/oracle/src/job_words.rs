//! Jobs as the program `replay` reads them: every kind has the words of a
//! column, and leaves at nothing what it has no use for.

use crate::FaceOptions;
use crate::InsetScaleMode;
use crate::builders::{Choice, Column, Plane, Standing};
use crate::line::bits;
use crate::mesh_cases::Column as CheapColumn;
use glam::{Vec2, Vec3};

/// Lines of words.
pub type Lines = Vec<Vec<u32>>;

/// What the program `replay` reads of a job.
pub trait Words {
    /// The lines of its words.
    fn lines(&self) -> Lines;
}

/// The words of a job.
#[derive(Debug, Clone, Default)]
pub struct Job {
    pub pairs: Vec<f32>,
    pub corners: Vec<f32>,
    pub numbers: Vec<f32>,
    pub marks: Vec<u8>,
    pub height: Option<f32>,
    pub position: [f32; 2],
    pub scale: Option<[f32; 3]>,
    pub turn: Option<[[f32; 3]; 3]>,
    pub offset: Option<[f32; 3]>,
    pub subdivisions: Option<u32>,
    /// The options of six sides, top and bottom; 255 the default, 256 no face.
    pub choices: [u32; 8],
}

impl From<&CheapColumn> for Job {
    fn from(case: &CheapColumn) -> Self {
        Self {
            corners: flat(&case.corners),
            height: Some(case.height),
            position: case.centre.to_array(),
            ..Self::default()
        }
    }
}

impl From<&Plane> for Job {
    fn from(case: &Plane) -> Self {
        let mut job = Self {
            corners: flat(&case.corners),
            ..Self::standing(&case.standing)
        };
        job.choices[6] = choice(case.choice);
        (job.numbers, job.marks) = table(&case.options);
        job
    }
}

impl From<&Column> for Job {
    fn from(case: &Column) -> Self {
        let [a, b, c, d, e, f] = case.sides.map(choice);
        let (numbers, marks) = table(&case.options);
        Self {
            pairs: flat(case.ends.as_flattened()),
            corners: flat(&case.corners),
            numbers,
            marks,
            height: Some(case.height),
            subdivisions: case.subdivisions,
            choices: [a, b, c, d, e, f, choice(case.top), choice(case.bottom)],
            ..Self::standing(&case.standing)
        }
    }
}

impl Job {
    fn standing(standing: &Standing) -> Self {
        let rows = standing.rows();
        Self {
            position: standing.position.to_array(),
            scale: standing.scale.map(Vec3::into),
            turn: rows.map(|rows| rows.map(|row| row.to_array())),
            offset: standing.offset.map(Vec3::into),
            ..Self::default()
        }
    }

    /// Every number that a job carries, in turn.
    pub fn floats(&mut self) -> Vec<&mut f32> {
        let lists = [&mut self.pairs, &mut self.corners, &mut self.numbers];
        let mut all: Vec<&mut f32> = lists.into_iter().flatten().collect();
        all.extend(&mut self.height);
        all.extend(&mut self.position);
        all.extend(self.scale.iter_mut().flatten());
        all.extend(self.turn.iter_mut().flatten().flatten());
        all.extend(self.offset.iter_mut().flatten());
        all
    }
}

impl Words for Job {
    fn lines(&self) -> Lines {
        let lengths = [
            self.pairs.len(),
            self.corners.len(),
            self.numbers.len(),
            self.marks.len(),
        ];
        let mut rest = floats(&[self.height.unwrap_or_default()]);
        rest.extend(self.position.map(bits));
        supplied(&mut rest, self.scale.as_ref().map(|three| floats(three)));
        supplied(
            &mut rest,
            self.turn.as_ref().map(|rows| floats(rows.as_flattened())),
        );
        supplied(&mut rest, self.offset.as_ref().map(|three| floats(three)));
        supplied(&mut rest, self.subdivisions.map(|count| vec![count]));
        rest.extend(self.choices);
        vec![
            lengths.map(|length| length as u32).to_vec(),
            floats(&self.pairs),
            floats(&self.corners),
            floats(&self.numbers),
            bytes(&self.marks),
            rest,
        ]
    }
}

/// The numbers and the marks of a table: nine and four an entry.
pub(crate) fn table(options: &[FaceOptions]) -> (Vec<f32>, Vec<u8>) {
    let (mut numbers, mut marks) = (Vec::new(), Vec::new());
    for FaceOptions { uv, insetting } in options {
        let pairs = [uv.scale_factor, uv.offset, uv.rect.min, uv.rect.max];
        numbers.extend(flat(&pairs));
        numbers.push(insetting.map_or(0.0, |inset| inset.scale));
        marks.extend([uv.flip.x, uv.flip.y].map(u8::from));
        marks.extend(insetting.map_or([0; 2], |inset| {
            let kind = match inset.mode {
                InsetScaleMode::Centroid => 1,
                InsetScaleMode::SmallestEdge => 2,
            };
            [kind, u8::from(inset.keep_inner_face)]
        }));
    }
    (numbers, marks)
}

pub(crate) fn floats(all: &[f32]) -> Vec<u32> {
    all.iter().map(|&x| bits(x)).collect()
}

pub(crate) fn bytes(all: &[u8]) -> Vec<u32> {
    all.iter().map(|&byte| u32::from(byte)).collect()
}

/// A mark, and what is supplied behind it.
pub(crate) fn supplied(words: &mut Vec<u32>, what: Option<Vec<u32>>) {
    words.push(u32::from(what.is_some()));
    words.extend(what.unwrap_or_default());
}

pub(crate) fn choice(choice: Choice) -> u32 {
    match choice {
        Choice::Absent => 256,
        Choice::Default => 255,
        Choice::Entry(entry) => entry as u32,
    }
}

pub(crate) fn flat(points: &[Vec2]) -> Vec<f32> {
    points.iter().flat_map(|point| point.to_array()).collect()
}
