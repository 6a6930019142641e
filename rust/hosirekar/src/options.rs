//! What is done to a face: its uvs and its inset.

use crate::placement::vec2;
use hosirekar_sys::{hosirekar_alter_uv, CChoice, CFlip, CUvOptions};

/// What is done to uvs: flipped, then scaled, then moved, then laid into a rectangle.
///
/// ```
/// use hosirekar::{Rect, UVOptions};
///
/// let options = UVOptions {
///     flip: [true, false],
///     rect: Rect { min: [0.0, 0.0], max: [0.5, 1.0] },
///     ..UVOptions::default()
/// };
/// assert_eq!(options.alter_uv([0.25, 0.75]), [0.375, 0.75]);
/// ```
#[derive(Clone, Copy, Debug, PartialEq)]
pub struct UVOptions {
    /// What u and v are multiplied by.
    pub scale_factor: [f32; 2],
    /// Whether u and v are mirrored.
    pub flip: [bool; 2],
    /// What is added to u and v.
    pub offset: [f32; 2],
    /// The part of the texture that 0 to 1 is laid into.
    pub rect: Rect,
}

/// A rectangle of a texture, the whole of it by default.
#[derive(Clone, Copy, Debug, PartialEq)]
pub struct Rect {
    /// Where 0 goes.
    pub min: [f32; 2],
    /// Where 1 goes.
    pub max: [f32; 2],
}

/// How an inner face is set into a face.
#[derive(Clone, Copy, Debug, Default, PartialEq)]
pub struct InsetOptions {
    /// Whether the inner face has triangles, or is a hole.
    pub keep_inner_face: bool,
    /// How far the points move; below 0 they move outwards.
    pub scale: f32,
    /// Where they move to.
    pub mode: InsetScaleMode,
}

/// Where the points of an inset move to.
#[derive(Clone, Copy, Debug, Default, PartialEq, Eq)]
pub enum InsetScaleMode {
    /// Towards the middle of the face, by a share of the way.
    #[default]
    Centroid,
    /// Along both edges, by a share of the shorter.
    SmallestEdge,
}

/// The options of one face.
///
/// Sides alter their uvs before the inset, caps and planes after it.
#[derive(Clone, Copy, Debug, Default, PartialEq)]
pub struct FaceOptions {
    /// What is done to its uvs.
    pub uv: UVOptions,
    /// The inset, if any.
    pub insetting: Option<InsetOptions>,
}

impl UVOptions {
    /// Leaves uvs as they are.
    #[must_use]
    pub const fn new() -> Self {
        Self {
            scale_factor: [1.0; 2],
            flip: [false; 2],
            offset: [0.0; 2],
            rect: Rect {
                min: [0.0; 2],
                max: [1.0; 2],
            },
        }
    }

    /// The uv with these options applied. Any number is taken here, and the bits of a NaN are open.
    #[must_use]
    pub fn alter_uv(&self, uv: [f32; 2]) -> [f32; 2] {
        let [u, v] = self.flip;
        let options = CUvOptions {
            scale: vec2(self.scale_factor),
            offset: vec2(self.offset),
            min: vec2(self.rect.min),
            max: vec2(self.rect.max),
            flip: CFlip { u, v },
        };
        let altered = hosirekar_alter_uv(options, vec2(uv));
        [altered.x, altered.y]
    }
}

impl FaceOptions {
    /// Leaves the face as it is.
    #[must_use]
    pub const fn new() -> Self {
        Self {
            uv: UVOptions::new(),
            insetting: None,
        }
    }
}

impl Default for UVOptions {
    fn default() -> Self {
        Self::new()
    }
}

impl Default for Rect {
    fn default() -> Self {
        UVOptions::new().rect
    }
}

/// The number of the default options, which need no entry, and of a map's own options among customs.
pub(crate) const DEFAULT: u8 = 255;

/// A number that no table has an entry for, with which the archive refuses a job.
const NOTHING: u8 = 254;

/// The options of a job as the archive takes them, nine numbers and four marks each: `N` entries at
/// most, of the 64 that a job may have.
#[derive(Clone, Debug)]
pub(crate) struct Table<const N: usize> {
    numbers: [[f32; 9]; N],
    marks: [[u8; 4]; N],
    entries: u8,
}

impl<const N: usize> Default for Table<N> {
    fn default() -> Self {
        Self {
            numbers: [[0.0; 9]; N],
            marks: [[0; 4]; N],
            entries: 0,
        }
    }
}

impl<const N: usize> Table<N> {
    /// The number of these options, which are the default or have an entry.
    pub(crate) fn add(&mut self, options: &FaceOptions) -> u8 {
        if marks(options) == [0; 4] && same(&numbers(options), &PLAIN) {
            return DEFAULT;
        }
        self.entry(options)
    }

    /// A face that may be there, its options added to the table.
    pub(crate) fn choice(&mut self, options: &Option<FaceOptions>) -> CChoice {
        match options {
            None => CChoice::default(),
            Some(options) => CChoice {
                given: true,
                option: self.add(options),
            },
        }
    }

    /// The entry of these options, the last that has their bits; a new one only where none has. Where
    /// there is no room for one more, a number that means nothing.
    pub(crate) fn entry(&mut self, options: &FaceOptions) -> u8 {
        let (numbers, marks) = (numbers(options), marks(options));
        let held = usize::from(self.entries);
        let equal = |k: &usize| marks == self.marks[*k] && same(&numbers, &self.numbers[*k]);
        if let Some(known) = (0..held).rev().find(equal) {
            return known as u8;
        }
        if held == N {
            return NOTHING;
        }
        self.numbers[held] = numbers;
        self.marks[held] = marks;
        self.entries += 1;
        self.entries - 1
    }

    pub(crate) fn numbers(&self) -> &[f32] {
        self.numbers[..usize::from(self.entries)].as_flattened()
    }

    pub(crate) fn marks(&self) -> &[u8] {
        self.marks[..usize::from(self.entries)].as_flattened()
    }
}

/// The numbers of the default options.
const PLAIN: [f32; 9] = [1.0, 1.0, 0.0, 0.0, 0.0, 0.0, 1.0, 1.0, 0.0];

/// Whether two entries have the same bits: -0 is not +0 here.
fn same(a: &[f32; 9], b: &[f32; 9]) -> bool {
    a.map(f32::to_bits) == b.map(f32::to_bits)
}

fn numbers(FaceOptions { uv, insetting }: &FaceOptions) -> [f32; 9] {
    let [su, sv] = uv.scale_factor;
    let [ou, ov] = uv.offset;
    let Rect {
        min: [u0, v0],
        max: [u1, v1],
    } = uv.rect;
    let inset = insetting.map_or(0.0, |inset| inset.scale);
    [su, sv, ou, ov, u0, v0, u1, v1, inset]
}

fn marks(FaceOptions { uv, insetting }: &FaceOptions) -> [u8; 4] {
    let [u, v] = uv.flip.map(u8::from);
    match insetting {
        None => [u, v, 0, 0],
        Some(inset) => {
            let mode = match inset.mode {
                InsetScaleMode::Centroid => 1,
                InsetScaleMode::SmallestEdge => 2,
            };
            [u, v, mode, u8::from(inset.keep_inner_face)]
        }
    }
}
