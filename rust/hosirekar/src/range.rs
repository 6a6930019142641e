//! Which number is out of range. The archive only says that there is one.

use crate::{
    Cell, CellOptions, CheapColumn, Column, FaceOptions, Fringe, HeightMap, InsetOptions, Plane,
    Rect, Refusal, UVOptions,
};
use std::fmt;
use std::ops::RangeInclusive;

/// A number that is not finite, or above 1,000,000 either way, and where it stands. Of several it is
/// the first by the order of the fields.
///
/// ```
/// use hosirekar::{layout::Layout, HeightMap, Job, Refusal};
///
/// let map = HeightMap::from_heights(&Layout::flat(), [((0, 0), 1.0), ((1, 0), f32::NAN)])?;
/// let Err(Refusal::Range(stray)) = map.build() else { unreachable!() };
/// assert_eq!(stray.field().to_string(), "cells[1].height");
/// assert!(stray.value().is_nan());
/// assert_eq!(
///     stray.to_string(),
///     "cells[1].height is NaN: make it finite and at most 1,000,000 either way",
/// );
/// # Ok::<(), Box<dyn std::error::Error>>(())
/// ```
#[derive(Clone, Copy, PartialEq, Eq, Hash)]
pub struct OutOfRange {
    place: Place,
    // Not the number itself: a NaN would differ from itself.
    bits: u32,
}

impl OutOfRange {
    /// A number of which nothing is known: that of [`Refusal::from_number`], which is told no more than
    /// 2, or of a job of your own. Its field is empty and its value NaN.
    pub const UNKNOWN: OutOfRange = OutOfRange::new(f32::NAN);

    /// A number that stands nowhere yet.
    const fn new(value: f32) -> Self {
        Self {
            place: Place([None; STEPS]),
            bits: value.to_bits(),
        }
    }

    /// Where it stands in the job, as `cells[3].side_ends[0][1][0]` or `top.uv.offset[1]`; of a call on
    /// a mesh, in the argument, as `scale[2]`.
    #[must_use]
    pub fn field(self) -> impl fmt::Display {
        self.place
    }

    /// The number.
    #[must_use]
    pub const fn value(self) -> f32 {
        f32::from_bits(self.bits)
    }

    /// The same number, seen from one step further out.
    fn within(mut self, step: Step) -> Self {
        let Place(steps) = &mut self.place;
        steps.rotate_right(1);
        steps[0] = Some(step);
        self
    }
}

impl fmt::Display for OutOfRange {
    fn fmt(&self, f: &mut fmt::Formatter<'_>) -> fmt::Result {
        if *self == Self::UNKNOWN {
            return f.write_str(
                "a number is out of range: make each finite and at most 1,000,000 either way",
            );
        }
        let (field, value) = (self.place, self.value());
        write!(
            f,
            "{field} is {value}: make it finite and at most 1,000,000 either way"
        )
    }
}

/// As the words have it: this is what `unwrap` prints of a refusal.
impl fmt::Debug for OutOfRange {
    fn fmt(&self, f: &mut fmt::Formatter<'_>) -> fmt::Result {
        f.debug_struct("OutOfRange")
            .field("field", &format_args!("{}", self.place))
            .field("value", &self.value())
            .finish()
    }
}

/// The steps to the deepest number, `custom_options[0].sides[0].uv.rect.min[0]`.
const STEPS: usize = 8;

/// The steps from the job to a number.
#[derive(Clone, Copy, PartialEq, Eq, Hash)]
struct Place([Option<Step>; STEPS]);

#[derive(Clone, Copy, PartialEq, Eq, Hash)]
enum Step {
    Field(Field),
    Entry(u16),
}

impl fmt::Display for Place {
    fn fmt(&self, f: &mut fmt::Formatter<'_>) -> fmt::Result {
        let mut dot = "";
        for step in self.0.iter().flatten() {
            match step {
                Step::Field(field) => write!(f, "{dot}{}", field.name())?,
                Step::Entry(entry) => write!(f, "[{entry}]")?,
            }
            dot = ".";
        }
        Ok(())
    }
}

/// The fields by their names: a byte each, so that a refusal stays small.
macro_rules! fields {
    ($($field:ident)+) => {
        // Spelt as the fields are, so that one word serves for both.
        #[allow(non_camel_case_types)]
        #[derive(Clone, Copy, PartialEq, Eq, Hash)]
        pub(crate) enum Field { $($field),+ }

        impl Field {
            const fn name(self) -> &'static str {
                match self { $(Field::$field => stringify!($field)),+ }
            }
        }
    };
}

fields! {
    bottom cap cap_corners caps cells centre corners custom_options end fringe height height_range
    insetting max min offset options origin position rect rotation scale scale_factor side_ends sides
    start top uv
}

/// What has numbers that a call tests.
pub(crate) trait Tested {
    /// The first that is out of range, named as seen from here.
    fn stray(&self) -> Option<OutOfRange>;

    /// The answer of a call that tests these numbers: where it is refused for one, with the place of that
    /// one. Nothing is looked for where the call is done, or where the place is known already.
    #[inline]
    fn name_stray<T>(&self, answer: Result<T, Refusal>) -> Result<T, Refusal> {
        match answer {
            Ok(done) => Ok(done),
            Err(why) => Err(self.named(why)),
        }
    }

    /// The refusal with the place of the number, out of the way of calls that are done.
    #[cold]
    #[inline(never)]
    fn named(&self, why: Refusal) -> Refusal {
        match why {
            Refusal::Range(OutOfRange::UNKNOWN) => {
                Refusal::Range(self.stray().unwrap_or(OutOfRange::UNKNOWN))
            }
            _ => why,
        }
    }
}

/// The numbers of a field or an argument of that name.
pub(crate) struct Named<'a, T>(pub(crate) Field, pub(crate) &'a T);

impl<T: Tested> Tested for Named<'_, T> {
    fn stray(&self) -> Option<OutOfRange> {
        let stray = self.1.stray()?;
        Some(stray.within(Step::Field(self.0)))
    }
}

impl Tested for f32 {
    fn stray(&self) -> Option<OutOfRange> {
        // A NaN is not below anything.
        let lawful = self.abs() <= 1_000_000.0;
        (!lawful).then(|| OutOfRange::new(*self))
    }
}

/// The archive refuses a list of more than 65,536 entries before it tests a number.
fn in_list(list: &[impl Tested]) -> Option<OutOfRange> {
    let mut entries = (0..=u16::MAX).zip(list);
    entries.find_map(|(k, entry)| Some(entry.stray()?.within(Step::Entry(k))))
}

impl<T: Tested, const N: usize> Tested for [T; N] {
    fn stray(&self) -> Option<OutOfRange> {
        in_list(self)
    }
}

impl<T: Tested> Tested for Vec<T> {
    fn stray(&self) -> Option<OutOfRange> {
        in_list(self)
    }
}

/// What is not given is not tested.
impl<T: Tested> Tested for Option<T> {
    fn stray(&self) -> Option<OutOfRange> {
        self.as_ref()?.stray()
    }
}

impl Tested for RangeInclusive<f32> {
    fn stray(&self) -> Option<OutOfRange> {
        let start = Named(Field::start, self.start()).stray();
        start.or_else(|| Named(Field::end, self.end()).stray())
    }
}

impl Tested for Fringe {
    fn stray(&self) -> Option<OutOfRange> {
        match self {
            Fringe::None => None,
            Fringe::Heights(heights) => heights.stray(),
        }
    }
}

/// The numbers of a struct are those of these fields.
macro_rules! tested_fields {
    ($($kind:ty { $($field:ident),+ })+) => {$(
        impl Tested for $kind {
            fn stray(&self) -> Option<OutOfRange> {
                None$(.or_else(|| Named(Field::$field, &self.$field).stray()))+
            }
        }
    )+};
}

tested_fields! {
    Rect { min, max }
    UVOptions { scale_factor, offset, rect }
    InsetOptions { scale }
    FaceOptions { uv, insetting }
    Plane { corners, position, options, scale, rotation, offset }
    Column { height, side_ends, sides, cap_corners, top, bottom, position, scale, rotation, offset }
    CheapColumn { corners, centre, height }
    Cell { height, position, side_ends }
    CellOptions { cap, sides }
    HeightMap {
        cells, cap_corners, caps, sides, custom_options, fringe, height_range, origin, scale,
        rotation, offset
    }
}
