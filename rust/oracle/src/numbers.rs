//! The numbers that cases are made of. Save those of stored meshes, which may
//! be anything, all are finite, and none is greater in magnitude than the limit.

use crate::random::Random;
use glam::{Vec2, vec2};

/// The greatest number that a job may carry.
pub const LIMIT: f32 = 1_000_000.0;

/// The least subnormal.
pub const LEAST: f32 = f32::from_bits(1);

/// A subnormal with a few digits.
pub const SUBNORMAL: f32 = 1e-40;

/// Its square is 0, so a vector of it has no length.
pub const TINY: f32 = 1e-30;

/// Its square is subnormal, so the length of a vector of it is coarse.
pub const COARSE: f32 = 3e-23;

/// The scales that every kind of inset is tried with.
pub const SCALES: [f32; 12] = [
    0.0, -0.0, 1.0, -1.0, 0.25, -0.25, 1.5, -1.5, SUBNORMAL, -SUBNORMAL, LIMIT, -LIMIT,
];

/// Numbers at the ends of their classes.
pub const ENDS: [f32; 26] = [
    0.0,
    -0.0,
    LEAST,
    -LEAST,
    SUBNORMAL,
    -SUBNORMAL,
    f32::MIN_POSITIVE,
    -f32::MIN_POSITIVE,
    TINY,
    -TINY,
    COARSE,
    -COARSE,
    1e-22,
    -1e-20,
    1e-10,
    0.5,
    -0.5,
    1.0,
    -1.0,
    0.999_999_94,
    1.000_000_1,
    2.0,
    -3.0,
    999_999.94,
    LIMIT,
    -LIMIT,
];

/// Numbers that only a stored mesh may have.
pub const BEYOND: [f32; 10] = [
    f32::MAX,
    -f32::MAX,
    f32::INFINITY,
    f32::NEG_INFINITY,
    f32::NAN,
    1e30,
    -1e38,
    16_777_216.0,
    1_000_000.06,
    f32::from_bits(0x7f00_0000),
];

/// A number between -`size` and `size`.
pub fn within(random: &mut Random, size: f32) -> f32 {
    (random.unit() * 2.0 - 1.0) * size
}

/// A number of any size that a job may carry; small ones come as often as
/// great ones.
pub fn of_any_size(random: &mut Random) -> f32 {
    let magnitude = random.below(LIMIT.to_bits() + 1);
    f32::from_bits(magnitude | (random.word() & 0x8000_0000))
}

/// A number of some class: mostly ordinary, sometimes at a class's end.
pub fn number(random: &mut Random) -> f32 {
    match random.below(8) {
        0 => random.pick(&ENDS),
        1 => of_any_size(random),
        2 => within(random, LIMIT),
        3 => (random.below(33) as f32 - 16.0) / 4.0,
        _ => within(random, 10.0),
    }
}

/// A point of two such numbers.
pub fn point(random: &mut Random) -> Vec2 {
    vec2(number(random), number(random))
}

/// A number of a stored mesh: of any class, and of any pattern now and then.
pub fn stored(random: &mut Random) -> f32 {
    match random.below(8) {
        0 => f32::from_bits(random.word()),
        1 => random.pick(&BEYOND),
        _ => number(random),
    }
}
