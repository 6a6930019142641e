//! The triples that the fused multiply-add is tried on.

use crate::random::Random;

/// The patterns of two factors and of an addend.
pub type Triple = [u32; 3];

/// How many triples a generated block has.
pub const BLOCK: u64 = 1 << 16;

/// How many triples the boundary patterns make.
pub const BOUNDARY_TRIPLES: u64 = (BOUNDARY.len() * BOUNDARY.len() * BOUNDARY.len()) as u64;

/// The sign's place in a pattern.
const SIGN: u32 = 1 << 31;

/// The boundary patterns without their signs.
const MAGNITUDES: [u32; 32] = [
    0x0000_0000, // 0
    0x0000_0001, // the least subnormal
    0x0000_0002,
    0x0000_0003,
    0x0040_0000, // half the least normal
    0x007f_fffe,
    0x007f_ffff, // the greatest subnormal
    0x0080_0000, // the least normal, 2^-126
    0x0080_0001,
    0x0100_0000, // 2^-125
    0x1a00_0000, // 2^-75: its square is half the least subnormal
    0x1a00_0001,
    0x1fff_ffff,
    0x2000_0000, // 2^-63: its square is the least normal
    0x3380_0000, // 2^-24: half the last place of 1
    0x3380_0001,
    0x3f00_0000, // 1/2
    0x3f7f_ffff,
    0x3f80_0000, // 1
    0x3f80_0001,
    0x4000_0000, // 2
    0x4040_0000, // 3
    0x4b7f_ffff, // 2^24 - 1
    0x5f7f_ffff, // its square is still a number
    0x5f80_0000, // 2^64: its square is not
    0x72ff_ffff,
    0x7300_0000, // 2^103: half the last place of the greatest number
    0x7f00_0000, // 2^127
    0x7f7f_ffff, // the greatest number
    0x7f80_0000, // infinity
    0x7f80_0001, // a NaN that signals
    0x7fc0_0000, // a quiet NaN
];

/// Patterns at the boundaries of every class, with both signs.
pub const BOUNDARY: [u32; 64] = both_signs();

const fn both_signs() -> [u32; 64] {
    let mut all = [0; 64];
    let mut i = 0;
    while i < MAGNITUDES.len() {
        all[2 * i] = MAGNITUDES[i];
        all[2 * i + 1] = MAGNITUDES[i] | SIGN;
        i += 1;
    }
    all
}

/// The patterns that no arithmetic on significands gets right by itself.
const SPECIAL: [u32; 6] = [
    0x0000_0000,
    0x8000_0000,
    0x7f80_0000,
    0xff80_0000,
    0x7fc0_0000,
    0xffc0_0000,
];

/// Every triple of boundary patterns.
pub fn boundary() -> impl Iterator<Item = Triple> {
    let pairs = BOUNDARY
        .iter()
        .flat_map(|&a| BOUNDARY.iter().map(move |&b| (a, b)));
    pairs.flat_map(|(a, b)| BOUNDARY.iter().map(move |&c| [a, b, c]))
}

/// A block of triples of uniform patterns.
pub fn uniform(seed: u64, block: u64) -> impl Iterator<Item = Triple> {
    let mut random = Random::for_block(seed, block);
    (0..BLOCK).map(move |_| {
        let two = random.bits();
        [two as u32, (two >> 32) as u32, random.word()]
    })
}

/// A block of triples that are made to be hard, every kind in its turn.
pub fn structured(seed: u64, block: u64) -> impl Iterator<Item = Triple> {
    let mut random = Random::for_block(seed, block);
    (0..BLOCK).map(move |i| KINDS[i as usize % KINDS.len()](&mut random))
}

/// A way to make a hard triple.
type Kind = fn(&mut Random) -> Triple;

/// All the ways.
const KINDS: [Kind; 12] = [
    near_cancellation,
    full_cancellation,
    exponent_gap,
    subnormal_border,
    half_the_least,
    subnormal_tie,
    overflow_threshold,
    tie_by_product,
    tie_of_product,
    subnormal_operands,
    few_bits,
    mixed_specials,
];

/// The addend is the negated product, rounded, give or take a few places:
/// what is left is the product's low half.
fn near_cancellation(random: &mut Random) -> Triple {
    let (ea, eb) = (random.between(-70, 62), random.between(-70, 62));
    let (a, b) = (ordinary(random, ea), ordinary(random, eb));
    let c = nudged(-(a * b), random.between(-4, 4));
    [a, b, c].map(f32::to_bits)
}

/// The product is a number itself, so that the addend can cancel all of it.
fn full_cancellation(random: &mut Random) -> Triple {
    let (x, y) = (random.below(1 << 12) + 1, random.below(1 << 12) + 1);
    let (ea, eb) = (random.between(-70, 50), random.between(-70, 50));
    let (a, b) = (scaled(x, ea), signed(random, scaled(y, eb)));
    [a, b, nudged(-(a * b), slip(random))].map(f32::to_bits)
}

/// Product and addend up to 60 places apart, either the greater.
fn exponent_gap(random: &mut Random) -> Triple {
    let (ea, eb) = (random.between(-30, 30), random.between(-30, 30));
    let ec = ea + eb + random.between(-60, 60);
    [ea, eb, ec].map(|exponent| ordinary(random, exponent).to_bits())
}

/// The product lies about the least normal number.
fn subnormal_border(random: &mut Random) -> Triple {
    let ea = random.between(-100, -26);
    let eb = -126 - ea + random.between(-3, 3);
    let factor = if random.once_in(2) {
        ordinary
    } else {
        near_power
    };
    let (a, b) = (factor(random, ea), factor(random, eb));
    let c = match random.below(3) {
        0 => signed(random, 0.0),
        1 => subnormal(random),
        _ => near_power(random, -126),
    };
    [a, b, c].map(f32::to_bits)
}

/// The product lies about half the least subnormal, where 0 begins.
fn half_the_least(random: &mut Random) -> Triple {
    let ea = random.between(-100, -50);
    let eb = -150 - ea + random.between(-1, 1);
    let (a, b) = (near_power(random, ea), near_power(random, eb));
    let c = if random.once_in(2) {
        f32::from_bits(random.below(4))
    } else {
        subnormal(random)
    };
    [a, b, signed(random, c)].map(f32::to_bits)
}

/// The product is an odd number of halves of the least subnormal.
fn subnormal_tie(random: &mut Random) -> Triple {
    let (x, y) = (random.below(1 << 12) | 1, random.below(1 << 12) | 1);
    let ea = random.between(-100, -50);
    let (a, b) = (scaled(x, ea), scaled(y, -150 - ea));
    let c = if random.once_in(3) {
        signed(random, 0.0)
    } else {
        subnormal(random)
    };
    [signed(random, a), b, c].map(f32::to_bits)
}

/// The sum lies about the place where numbers end: the product or the addend
/// is about the greatest number, or the addend brings a greater product back.
fn overflow_threshold(random: &mut Random) -> Triple {
    let ea = random.between(1, 100);
    let below = random.between(-3, 0);
    match random.below(3) {
        0 => {
            let b = nudged(scaled(0xff_ffff, 104 - ea), slip(random));
            let ec = random.between(101, 104);
            [near_power(random, ea), b, near_power(random, ec)]
        }
        1 => {
            let c = nudged(f32::MAX, below);
            let (a, b) = (near_power(random, ea), near_power(random, 103 - ea));
            [a, b, signed(random, c)]
        }
        _ => [ea, 127 - ea, 127].map(|exponent| ordinary(random, exponent)),
    }
    .map(f32::to_bits)
}

/// The product is half the last place of the addend, or nearly so.
fn tie_by_product(random: &mut Random) -> Triple {
    let (ea, ec) = (random.between(-40, 40), random.between(-60, 60));
    let c = ordinary(random, ec);
    let exponents = [ea, ec - 24 - ea];
    let [a, b] = if random.once_in(2) {
        exponents.map(|exponent| signed(random, scaled(1, exponent)))
    } else {
        exponents.map(|exponent| near_power(random, exponent))
    };
    [a, b, c].map(f32::to_bits)
}

/// The product has one bit too many, and the addend is 0 or far below.
fn tie_of_product(random: &mut Random) -> Triple {
    let x = 0xc00 | random.below(1 << 10) | 1;
    let y = 0x1800 | random.below(1 << 11) | 1;
    let (ea, eb) = (random.between(-50, 50), random.between(-50, 50));
    let far = (ea + eb - random.between(2, 100)).max(-149);
    let c = match random.below(4) {
        0 | 1 => 0.0,
        2 => scaled(1, far),
        _ => f32::from_bits(1),
    };
    let [a, b] = [scaled(x, ea), scaled(y, eb)];
    [signed(random, a), b, signed(random, c)].map(f32::to_bits)
}

/// At least one operand is subnormal, the others such that all three matter.
fn subnormal_operands(random: &mut Random) -> Triple {
    let which = 1 + random.below(7);
    let operand = |random: &mut Random, bit: u32, exponent| {
        if which & bit != 0 {
            subnormal(random)
        } else {
            ordinary(random, exponent)
        }
    };
    let (low, high) = (random.between(-126, -20), random.between(0, 127));
    let ec = (low + high + random.between(-30, 30)).clamp(-126, 127);
    let (a, b) = (operand(random, 1, low), operand(random, 2, high));
    let c = operand(random, 4, ec);
    let (a, b) = if random.once_in(2) { (a, b) } else { (b, a) };
    [a, b, c].map(f32::to_bits)
}

/// Few bits are set, so that ties and exact results come often.
fn few_bits(random: &mut Random) -> Triple {
    let (ea, eb) = (random.between(-40, 30), random.between(-40, 30));
    let ec = ea + eb + random.between(-30, 50);
    [ea, eb, ec].map(|exponent| {
        let significand = few(random);
        signed(random, scaled(significand, exponent)).to_bits()
    })
}

/// Zeros, infinities, NaNs and boundary patterns among others.
fn mixed_specials(random: &mut Random) -> Triple {
    [0; 3].map(|_| match random.below(8) {
        0 | 1 => random.pick(&SPECIAL),
        2 | 3 => random.pick(&BOUNDARY),
        4 => random.word(),
        _ => {
            let exponent = random.between(-3, 3);
            ordinary(random, exponent).to_bits()
        }
    })
}

/// A number of either sign from 2^`exponent` to twice that; the exponent is a
/// normal number's.
pub fn ordinary(random: &mut Random, exponent: i32) -> f32 {
    let word = random.word();
    let biased = (exponent + 127) as u32;
    f32::from_bits(word & (SIGN | 0x7f_ffff) | biased << 23)
}

/// A number of either sign within three places of 2^`exponent`.
fn near_power(random: &mut Random, exponent: i32) -> f32 {
    let near = nudged(scaled(1, exponent), slip(random));
    signed(random, near)
}

/// A few places up or down, but none at all half the time.
fn slip(random: &mut Random) -> i32 {
    if random.once_in(2) {
        0
    } else {
        random.between(-3, 3)
    }
}

/// A subnormal number of either sign, of any length; never 0.
fn subnormal(random: &mut Random) -> f32 {
    let length = random.below(23);
    let bits = 1 << length | random.word() & ((1 << length) - 1);
    signed(random, f32::from_bits(bits))
}

/// A significand with one to three bits set.
fn few(random: &mut Random) -> u32 {
    (0..=random.below(3)).fold(0, |bits, _| bits | 1 << random.below(24))
}

/// `x` with a random sign.
fn signed(random: &mut Random, x: f32) -> f32 {
    f32::from_bits(x.to_bits() ^ random.word() & SIGN)
}

/// The number `ulps` places above `x` in magnitude.
fn nudged(x: f32, ulps: i32) -> f32 {
    f32::from_bits(x.to_bits().wrapping_add_signed(ulps))
}

/// `significand` × 2^`exponent`, rounded if a single number cannot hold it.
pub fn scaled(significand: u32, exponent: i32) -> f32 {
    let power = f64::from_bits(((exponent + 1023) as u64) << 52);
    (f64::from(significand) * power) as f32
}

#[cfg(test)]
mod tests {
    use super::*;
    use crate::exact;
    use std::collections::HashSet;

    const LEAST_NORMAL: u32 = 0x0080_0000;
    const INFINITE: u32 = 0x7f80_0000;

    fn magnitude(x: u32) -> u32 {
        x & !SIGN
    }

    fn is_finite(triple: &Triple) -> bool {
        triple.iter().all(|&x| magnitude(x) < INFINITE)
    }

    fn is_subnormal(x: u32) -> bool {
        f32::from_bits(x).is_subnormal()
    }

    fn result(triple: &Triple) -> u32 {
        exact::fused(*triple).result
    }

    fn overflows(triple: &Triple) -> bool {
        is_finite(triple) && magnitude(result(triple)) == INFINITE
    }

    fn product(triple: &Triple) -> f64 {
        let [a, b, _] = triple.map(|x| f64::from(f32::from_bits(x)));
        a * b
    }

    /// Twelve thousand triples of one kind.
    fn made(kind: Kind) -> Vec<Triple> {
        let mut random = Random::for_block(1, 1);
        (0..12_000).map(|_| kind(&mut random)).collect()
    }

    fn count(triples: &[Triple], holds: impl Fn(&Triple) -> bool) -> usize {
        triples.iter().filter(|triple| holds(triple)).count()
    }

    #[test]
    fn boundary_triples_are_all_there_once() {
        assert_eq!(boundary().count() as u64, BOUNDARY_TRIPLES);
        let different: HashSet<Triple> = boundary().collect();
        assert_eq!(different.len() as u64, BOUNDARY_TRIPLES);
    }

    #[test]
    fn boundary_patterns_are_of_every_class_and_sign() {
        use std::num::FpCategory::{Infinite, Nan, Normal, Subnormal, Zero};
        for class in [Zero, Subnormal, Normal, Infinite, Nan] {
            for sign in [0, SIGN] {
                let of = |x: &&u32| f32::from_bits(**x).classify() == class && **x & SIGN == sign;
                assert!(BOUNDARY.iter().any(|x| of(&x)), "{class:?} {sign:x}");
            }
        }
    }

    #[test]
    fn a_structured_block_has_every_hard_thing() {
        let block: Vec<Triple> = structured(1, 1).collect();
        assert_eq!(block.len() as u64, BLOCK);
        assert!(count(&block, |t| is_subnormal(result(t))) > 10_000);
        assert!(count(&block, |t| exact::fused(*t).tie) > 10_000);
        assert!(count(&block, |t| exact::fused(*t).cancelled) > 2000);
        assert!(count(&block, overflows) > 1000);
        assert!(count(&block, |t| t.iter().any(|&x| is_subnormal(x))) > 10_000);
        assert!(count(&block, |t| !is_finite(t)) > 1000);
    }

    #[test]
    fn a_uniform_block_has_every_bit_both_ways() {
        for place in 0..3 {
            let all = uniform(1, 2).fold((0, 0), |(ones, zeros), triple| {
                (ones | triple[place], zeros | !triple[place])
            });
            assert_eq!(all, (u32::MAX, u32::MAX));
        }
    }

    #[test]
    fn blocks_depend_on_seed_and_number_alone() {
        assert!(structured(3, 5).eq(structured(3, 5)));
        assert!(uniform(3, 5).eq(uniform(3, 5)));
        assert!(structured(3, 5).ne(structured(3, 7)));
        assert!(structured(3, 5).ne(structured(4, 5)));
    }

    #[test]
    fn near_cancellation_leaves_little() {
        let triples = made(near_cancellation);
        let little = |t: &Triple| {
            let left = f64::from(f32::from_bits(result(t)));
            left != 0.0 && left.abs() < product(t).abs() / f64::from(1 << 20)
        };
        assert!(count(&triples, little) > 11_000);
    }

    #[test]
    fn full_cancellation_leaves_nothing_half_the_time() {
        let triples = made(full_cancellation);
        let cancelled = count(&triples, |t| exact::fused(*t).cancelled);
        assert!(cancelled > 5000 && cancelled < 11_000, "{cancelled}");
    }

    #[test]
    fn exponent_gaps_are_all_there() {
        let exponent = |x: f64| (x.to_bits() >> 52 & 0x7ff) as i32;
        let gap = |t: &Triple| exponent(f32::from_bits(t[2]).into()) - exponent(product(t));
        let gaps: HashSet<i32> = made(exponent_gap).iter().map(gap).collect();
        assert!((-60..=60).all(|gap| gaps.contains(&gap)));
    }

    #[test]
    fn the_subnormal_border_is_met_from_both_sides() {
        let triples = made(subnormal_border);
        assert!(count(&triples, |t| is_subnormal(result(t))) > 2000);
        assert!(count(&triples, |t| magnitude(result(t)) > LEAST_NORMAL) > 2000);
        assert!(count(&triples, |t| magnitude(result(t)) == LEAST_NORMAL) > 50);
    }

    #[test]
    fn half_the_least_goes_down_and_up() {
        let mut triples = made(half_the_least);
        assert!(count(&triples, |t| exact::fused(*t).tie) > 500);
        triples.retain(|t| magnitude(t[2]) == 0);
        assert!(count(&triples, |t| magnitude(result(t)) == 0) > 300);
        assert!(count(&triples, |t| magnitude(result(t)) == 1) > 300);
    }

    #[test]
    fn subnormal_ties_are_ties() {
        let triples = made(subnormal_tie);
        assert_eq!(count(&triples, |t| exact::fused(*t).tie), triples.len());
    }

    #[test]
    fn the_overflow_threshold_is_met_from_both_sides() {
        let triples = made(overflow_threshold);
        assert!(triples.iter().all(is_finite));
        assert!(count(&triples, overflows) > 1000);
        assert!(count(&triples, |t| magnitude(result(t)) == 0x7f7f_ffff) > 500);
        assert!(count(&triples, |t| overflows(t) && exact::fused(*t).tie) > 50);
        let back = |t: &Triple| product(t).abs() >= 2f64.powi(128) && !overflows(t);
        assert!(count(&triples, back) > 500);
    }

    #[test]
    fn a_product_of_half_a_place_ties_or_nearly() {
        let triples = made(tie_by_product);
        let ties = count(&triples, |t| exact::fused(*t).tie);
        assert!(ties > 5000 && ties < 10_000, "{ties}");
    }

    #[test]
    fn a_product_of_one_bit_too_many_ties_unless_something_is_below() {
        let triples = made(tie_of_product);
        let (bare, sticky): (Vec<Triple>, Vec<Triple>) =
            triples.iter().partition(|t| magnitude(t[2]) == 0);
        assert!(bare.len() > 4000 && sticky.len() > 4000);
        assert_eq!(count(&bare, |t| exact::fused(*t).tie), bare.len());
        assert_eq!(count(&sticky, |t| exact::fused(*t).tie), 0);
    }

    #[test]
    fn subnormal_operands_are_subnormal_in_every_place() {
        let triples = made(subnormal_operands);
        assert!(triples.iter().all(|t| t.iter().any(|&x| is_subnormal(x))));
        for place in 0..3 {
            assert!(count(&triples, |t| is_subnormal(t[place])) > 3000);
        }
        let matters = |t: &Triple| magnitude(result(t)) != magnitude(t[2]);
        assert!(count(&triples, matters) > 3000);
    }

    #[test]
    fn few_bits_tie_often() {
        let triples = made(few_bits);
        assert!(count(&triples, |t| exact::fused(*t).tie) > 200);
    }

    #[test]
    fn specials_come_mixed_with_others() {
        let triples = made(mixed_specials);
        let special = |x: &u32| magnitude(*x) >= INFINITE || magnitude(*x) == 0;
        let mixed = |t: &Triple| t.iter().any(special) && !t.iter().all(special);
        assert!(count(&triples, mixed) > 1000);
        assert!(count(&triples, |t| magnitude(result(t)) > INFINITE) > 500);
        assert!(count(&triples, |t| magnitude(result(t)) == INFINITE) > 500);
        assert!(count(&triples, |t| magnitude(result(t)) == 0) > 50);
    }
}
