//! The fused multiply-add in whole numbers: slow, but plainly right. It says
//! whether the machine can be trusted, and tells the tests what a triple is.

use crate::patterns::Triple;

/// The exponent of the unit: every product of two numbers is a multiple of
/// 2^-298, and so is every number.
const UNIT: i32 = 298;

/// The place of the least subnormal, 2^-149, counted in units.
const LEAST: u32 = 149;

/// Infinity's pattern.
const INFINITE: u32 = 0x7f80_0000;

/// The sign's place in a pattern.
const SIGN: u32 = 1 << 31;

/// A rounded sum, and what happened on the way.
#[derive(Clone, Copy, Debug, PartialEq, Eq)]
pub struct Sum {
    /// The pattern of the result.
    pub result: u32,
    /// Whether the exact sum lay in the middle between two neighbours.
    pub tie: bool,
    /// Whether product and addend, neither of them 0, left nothing.
    pub cancelled: bool,
}

impl Sum {
    /// A result that took no rounding.
    fn plain(result: u32) -> Sum {
        Sum {
            result,
            tie: false,
            cancelled: false,
        }
    }
}

/// The first two of `triple` multiplied, the third added, rounded once.
pub fn fused(triple: Triple) -> Sum {
    let [a, b, c] = triple;
    let sign = (a ^ b) & SIGN;
    if triple.iter().any(|x| x & INFINITE == INFINITE) {
        return Sum::plain(fused_special(triple));
    }
    let ((ma, ea), (mb, eb), (mc, ec)) = (split(a), split(b), split(c));
    let product = Wide::new(ma * mb, (ea + eb + UNIT) as u32);
    let addend = Wide::new(mc, (ec + UNIT) as u32);
    if sign == c & SIGN {
        return round(sign, product.plus(addend));
    }
    match (product.is_above(addend), addend.is_above(product)) {
        (true, _) => round(sign, product.minus(addend)),
        (_, true) => round(c & SIGN, addend.minus(product)),
        _ => Sum {
            cancelled: mc != 0,
            ..Sum::plain(0)
        },
    }
}

/// The result when an operand is infinite or no number.
fn fused_special(triple: Triple) -> u32 {
    const NAN: u32 = 0x7fc0_0000;
    let [a, b, c] = triple;
    let sign = (a ^ b) & SIGN;
    let infinite = |x: u32| x & !SIGN == INFINITE;
    let zero = |x: u32| x & !SIGN == 0;
    if triple.iter().any(|x| x & !SIGN > INFINITE) {
        return NAN;
    }
    if (infinite(a) && zero(b)) || (zero(a) && infinite(b)) {
        return NAN;
    }
    match (infinite(a) || infinite(b), infinite(c)) {
        (true, true) if sign != c & SIGN => NAN,
        (true, _) => sign | INFINITE,
        (false, _) => c,
    }
}

/// The whole number and the exponent of two that make the magnitude of `x`.
fn split(x: u32) -> (u64, i32) {
    let (exponent, fraction) = ((x >> 23) & 0xff, u64::from(x & 0x7f_ffff));
    match exponent {
        0 => (fraction, -149),
        _ => (fraction | 1 << 23, exponent as i32 - 150),
    }
}

/// The pattern nearest to `sum` units, the even one of two.
fn round(sign: u32, sum: Wide) -> Sum {
    let Some(top) = sum.top() else {
        return Sum::plain(sign);
    };
    let place = top.saturating_sub(23).max(LEAST);
    let kept = sum.bits_from(place);
    let half = sum.bits_from(place - 1) & 1 == 1;
    let rest = sum.any_below(place - 1);
    let up = half && (rest || kept & 1 == 1);
    // A carry out of the fraction moves on into the exponent, as it should.
    let pattern = (u64::from(place - LEAST) << 23) + kept + u64::from(up);
    Sum {
        result: sign | pattern.min(u64::from(INFINITE)) as u32,
        tie: half && !rest,
        cancelled: false,
    }
}

/// A whole number of 576 bits, the least limb first: a sum has 555 at most.
#[derive(Clone, Copy)]
struct Wide([u64; 9]);

impl Wide {
    /// `small` × 2^`shift`.
    fn new(small: u64, shift: u32) -> Wide {
        let shifted = u128::from(small) << (shift % 64);
        let limb = (shift / 64) as usize;
        let mut limbs = [0; 9];
        limbs[limb] = shifted as u64;
        if (shifted >> 64) != 0 {
            limbs[limb + 1] = (shifted >> 64) as u64;
        }
        Wide(limbs)
    }

    fn plus(self, other: Wide) -> Wide {
        let mut limbs = [0; 9];
        let mut carry = false;
        for (i, limb) in limbs.iter_mut().enumerate() {
            let (sum, first) = self.0[i].overflowing_add(other.0[i]);
            let (sum, second) = sum.overflowing_add(u64::from(carry));
            (*limb, carry) = (sum, first || second);
        }
        Wide(limbs)
    }

    /// The difference; `other` is not above `self`.
    fn minus(self, other: Wide) -> Wide {
        let mut limbs = [0; 9];
        let mut borrow = false;
        for (i, limb) in limbs.iter_mut().enumerate() {
            let (rest, first) = self.0[i].overflowing_sub(other.0[i]);
            let (rest, second) = rest.overflowing_sub(u64::from(borrow));
            (*limb, borrow) = (rest, first || second);
        }
        Wide(limbs)
    }

    fn is_above(self, other: Wide) -> bool {
        self.0.iter().rev().gt(other.0.iter().rev())
    }

    /// The place of the highest bit that is set.
    fn top(self) -> Option<u32> {
        let limb = self.0.iter().rposition(|&limb| limb != 0)?;
        Some(64 * limb as u32 + self.0[limb].ilog2())
    }

    /// The bits from `place` upwards, as many as 64 hold.
    fn bits_from(self, place: u32) -> u64 {
        let limb = (place / 64) as usize;
        let high = self.0.get(limb + 1).copied().unwrap_or(0);
        let both = u128::from(high) << 64 | u128::from(self.0[limb]);
        (both >> (place % 64)) as u64
    }

    /// Whether any bit below `place` is set.
    fn any_below(self, place: u32) -> bool {
        let limb = (place / 64) as usize;
        let mask = (1 << (place % 64)) - 1;
        self.0[limb] & mask != 0 || self.0[..limb].iter().any(|&limb| limb != 0)
    }
}

#[cfg(test)]
mod tests {
    use super::*;
    use crate::fused::KNOWN;
    use crate::patterns;

    #[test]
    fn the_known_answers_are_given() {
        for (triple, answer) in KNOWN {
            assert_eq!(fused(triple).result, answer, "{triple:08x?}");
        }
    }

    #[test]
    fn ties_and_cancellations_are_seen() {
        let half_of_least = [0x1a00_0000, 0x1a00_0000, 0];
        assert!(fused(half_of_least).tie);
        assert!(!fused([0x1a00_0001, 0x1a00_0000, 0]).tie);
        let one = 0x3f80_0000;
        assert!(fused([one, one, one | SIGN]).cancelled);
        assert!(!fused([0, one, SIGN]).cancelled);
    }

    #[test]
    fn the_machine_agrees_on_every_boundary_triple() {
        for triple in patterns::boundary() {
            let [a, b, c] = triple.map(f32::from_bits);
            let exact = f32::from_bits(fused(triple).result);
            let machine = a.mul_add(b, c);
            assert!(crate::report::same(exact, machine), "{triple:08x?}");
        }
    }
}
