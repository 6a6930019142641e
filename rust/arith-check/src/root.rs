//! The square root against the machine's, pattern by pattern.

use crate::blocks::{self, Job};
use crate::patterns::BOUNDARY;
use crate::report::{same, RootDifference};

/// The most patterns of one block.
const BLOCK: u64 = 1 << 20;

/// The short form's stride: a prime, so that it meets every low bit pattern.
const STRIDE: u32 = 1009;

/// How far the short form goes on either side of a boundary.
const NEAR: u32 = 4096;

/// The patterns from `from` to `to`, ends included, in steps of `step`.
#[derive(Clone, Copy, Debug, PartialEq, Eq)]
pub struct Span {
    /// The first pattern.
    pub from: u32,
    /// No pattern is above this one.
    pub to: u32,
    /// How far apart two neighbours are; not 0.
    pub step: u32,
}

impl Span {
    /// Every pattern from `from` to `to`.
    pub fn every(from: u32, to: u32) -> Span {
        Span { from, to, step: 1 }
    }

    /// How many patterns there are.
    pub fn count(self) -> u64 {
        u64::from(self.to - self.from) / u64::from(self.step) + 1
    }

    /// The patterns in ascending order.
    fn patterns(self) -> impl Iterator<Item = u32> {
        let (from, step) = (u64::from(self.from), u64::from(self.step));
        (0..self.count()).map(move |i| (from + i * step) as u32)
    }

    /// The same patterns in pieces of at most `BLOCK`.
    fn pieces(self) -> impl Iterator<Item = Span> {
        let Span { from, to, step } = self;
        let (from, step) = (u64::from(from), u64::from(step));
        (0..self.count().div_ceil(BLOCK)).map(move |piece| {
            let first = from + piece * BLOCK * step;
            let last = (first + (BLOCK - 1) * step).min(u64::from(to));
            Span {
                from: first as u32,
                to: last as u32,
                step: step as u32,
            }
        })
    }
}

/// The short form: the neighbourhoods of all boundaries, and a stride through
/// all patterns, which meets a few of the neighbours again.
pub fn short() -> Vec<Span> {
    let stride = Span {
        from: 0,
        to: u32::MAX,
        step: STRIDE,
    };
    let mut spans = neighbourhoods();
    spans.push(stride);
    spans
}

/// The neighbourhoods of the boundary patterns and of each power of two's
/// first, ascending; those that overlap are made one.
fn neighbourhoods() -> Vec<Span> {
    let mut centres: Vec<u32> = (0..512).map(|exponent| exponent << 23).collect();
    centres.extend(BOUNDARY);
    centres.extend([0x7fff_ffff, 0xffff_ffff]);
    centres.sort_unstable();
    let mut spans: Vec<Span> = Vec::new();
    for centre in centres {
        let near = Span::every(centre.saturating_sub(NEAR), centre.saturating_add(NEAR));
        match spans.last_mut() {
            Some(last) if near.from <= last.to => last.to = near.to,
            _ => spans.push(near),
        }
    }
    spans
}

/// How many patterns `spans` have, if `ours` agrees with the machine on all of
/// them, else the first that differs; in one span that is the lowest.
pub fn check(
    spans: &[Span],
    threads: usize,
    ours: impl Fn(f32) -> f32 + Sync,
) -> Result<u64, RootDifference> {
    let pieces: Vec<Span> = spans.iter().flat_map(|span| span.pieces()).collect();
    let job = Job {
        name: "root",
        unit: "patterns",
        blocks: pieces.len() as u64,
        total: spans.iter().map(|span| span.count()).sum(),
        threads,
    };
    blocks::run(&job, |block| check_span(pieces[block as usize], &ours))
}

/// Compares `ours` with the machine on one span.
fn check_span(span: Span, ours: impl Fn(f32) -> f32) -> Result<u64, RootDifference> {
    match span.patterns().find_map(|input| difference(input, &ours)) {
        None => Ok(span.count()),
        Some(found) => Err(found),
    }
}

/// What `ours` and the machine give for `input`, if they differ.
fn difference(input: u32, ours: impl Fn(f32) -> f32) -> Option<RootDifference> {
    let x = f32::from_bits(input);
    let (ours, machine) = (ours(x), x.sqrt());
    if same(ours, machine) {
        return None;
    }
    Some(RootDifference {
        input,
        ours: ours.to_bits(),
        machine: machine.to_bits(),
    })
}

#[cfg(test)]
mod tests {
    use super::*;

    /// The machine's root, but one place too high at the patterns of `wrong`.
    fn wrong_at(wrong: &[u32]) -> impl Fn(f32) -> f32 + Sync + '_ {
        |x| {
            let off = u32::from(wrong.contains(&x.to_bits()));
            f32::from_bits(x.sqrt().to_bits() + off)
        }
    }

    #[test]
    fn the_machine_agrees_with_itself() {
        let span = Span::every(0x3f80_0000, 0x3fa0_0000);
        assert_eq!(check(&[span], 2, f32::sqrt), Ok(0x20_0001));
    }

    #[test]
    fn the_lowest_wrong_pattern_is_reported() {
        let span = Span::every(0x3f00_0000, 0x3fc0_0000);
        let wrong = wrong_at(&[0x3fb0_0001, 0x3f80_0001, 0x3f80_0002]);
        for threads in [1, 2, 5] {
            let found = check(&[span], threads, &wrong).unwrap_err();
            assert_eq!(found.input, 0x3f80_0001);
            assert_eq!(found.ours, 0x3f80_0001);
            assert_eq!(found.machine, 0x3f80_0000);
        }
    }

    #[test]
    fn both_ends_of_a_range_are_run() {
        let span = Span::every(0x4000_0000, 0x4000_00ff);
        for end in [span.from, span.to] {
            let found = check(&[span], 2, wrong_at(&[end])).unwrap_err();
            assert_eq!(found.input, end);
        }
        let outside = [span.from - 1, span.to + 1];
        assert_eq!(check(&[span], 2, wrong_at(&outside)), Ok(256));
    }

    #[test]
    fn a_zero_of_the_wrong_sign_is_reported() {
        let wrong = |x: f32| if x == 0.0 { -0.0 } else { x.sqrt() };
        let found = check(&[Span::every(0, 10)], 1, wrong).unwrap_err();
        assert_eq!((found.input, found.ours, found.machine), (0, 1 << 31, 0));
    }

    #[test]
    fn a_number_for_nan_is_reported_and_another_nan_is_not() {
        let span = Span::every(0x7f80_0000, 0x7f80_0010);
        let number = |x: f32| if x.is_nan() { 1.0 } else { x.sqrt() };
        let found = check(&[span], 1, number).unwrap_err();
        assert_eq!((found.input, found.ours), (0x7f80_0001, 0x3f80_0000));
        let nan = f32::from_bits(0xffc1_2345);
        let other = |x: f32| if x.is_nan() { nan } else { x.sqrt() };
        assert_eq!(check(&[span], 1, other), Ok(17));
    }

    #[test]
    fn all_patterns_are_2_to_the_32() {
        let all = Span::every(0, u32::MAX);
        assert_eq!(all.count(), 1 << 32);
        let pieces: Vec<Span> = all.pieces().collect();
        assert_eq!(
            pieces.iter().map(|piece| piece.count()).sum::<u64>(),
            1 << 32
        );
        assert!(pieces.windows(2).all(|two| two[0].to + 1 == two[1].from));
        assert_eq!(pieces[0].from, 0);
        assert_eq!(pieces[pieces.len() - 1].to, u32::MAX);
    }

    #[test]
    fn pieces_keep_the_step() {
        let stride = *short().last().unwrap();
        let whole = stride.patterns();
        let parts = stride.pieces().flat_map(|piece| piece.patterns());
        assert!(whole.eq(parts));
        assert_eq!(stride.count(), stride.patterns().count() as u64);
    }

    #[test]
    fn the_short_form_has_every_neighbourhood_once() {
        let near = neighbourhoods();
        assert!(near.windows(2).all(|two| two[0].to < two[1].from));
        let holds = |x: u32| near.iter().any(|span| span.from <= x && x <= span.to);
        for exponent in 1..512u32 {
            let first = exponent << 23;
            assert!(holds(first - NEAR) && holds(first) && holds(first + NEAR));
        }
        assert!(BOUNDARY.iter().all(|&x| holds(x)));
        assert!(holds(0) && holds(u32::MAX));
    }
}
