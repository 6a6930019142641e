//! The fused multiply-add against the machine's, triple by triple.

use crate::blocks::{self, Job};
use crate::exact;
use crate::patterns::{self, Triple, BLOCK, BOUNDARY_TRIPLES};
use crate::report::{same, FusedDifference};

/// How many triples the long form runs at least.
pub const LONG: u64 = 1_000_000_000;

/// How many triples the short form generates.
pub const SHORT: u64 = 10_000_000;

/// Triples that a product rounded by itself, or a sum rounded twice, gets
/// wrong, with their answers worked out by hand.
pub const KNOWN: [(Triple, u32); 14] = [
    // (1 + 2^-23)² - (1 + 2^-22) = 2^-46: a rounded product leaves 0.
    ([0x3f80_0001, 0x3f80_0001, 0xbf80_0002], 0x2880_0000),
    // (1 + 2^-12)² is a tie, which 2^-60 breaks: twice the bits do not see it.
    ([0x3f80_0800, 0x3f80_0800, 0x0000_0000], 0x3f80_1000),
    ([0x3f80_0800, 0x3f80_0800, 0x2180_0000], 0x3f80_1001),
    ([0x3f80_0800, 0x3f80_0800, 0xa180_0000], 0x3f80_1000),
    ([0x3f80_0800, 0xbf80_0800, 0xa180_0000], 0xbf80_1001),
    // 2^-150, half the least subnormal, goes to the even neighbour.
    ([0x1a00_0000, 0x1a00_0000, 0x0000_0000], 0x0000_0000),
    ([0x1a00_0001, 0x1a00_0000, 0x0000_0000], 0x0000_0001),
    ([0x1a00_0000, 0x1a00_0000, 0x0000_0001], 0x0000_0002),
    ([0x9a00_0000, 0x1a00_0000, 0x0000_0001], 0x0000_0000),
    ([0x9a00_0000, 0x1a00_0000, 0x0000_0000], 0x8000_0000),
    // Nothing is left of 1 - 1, and it is +0.
    ([0x3f80_0000, 0x3f80_0000, 0xbf80_0000], 0x0000_0000),
    // The greatest number and half its last place, or a little less.
    ([0x7f7f_ffff, 0x3f80_0000, 0x7300_0000], 0x7f80_0000),
    ([0x7f7f_ffff, 0x3f80_0000, 0x72ff_ffff], 0x7f7f_ffff),
    // The product alone is too great, the sum is not.
    ([0x7f7f_ffff, 0x4000_0000, 0xff7f_ffff], 0x7f7f_ffff),
];

/// The machine's fused multiply-add.
pub fn machine(a: f32, b: f32, c: f32) -> f32 {
    a.mul_add(b, c)
}

/// Refuses a `machine` that is no measure: it must give the known answers, and
/// agree with whole numbers on a structured block.
pub fn trust(machine: impl Fn(f32, f32, f32) -> f32) -> Result<(), String> {
    let structured = patterns::structured(0, 1);
    let expected = structured.map(|triple| (triple, exact::fused(triple).result));
    for (triple, answer) in KNOWN.into_iter().chain(expected) {
        // The compiler would work out a call whose inputs it knows.
        let [a, b, c] = std::hint::black_box(triple).map(f32::from_bits);
        let given = machine(a, b, c);
        if !same(given, f32::from_bits(answer)) {
            let [a, b, c] = triple;
            return Err(format!(
                "this machine's own fused multiply-add is wrong at \
                 {a:08x} × {b:08x} + {c:08x}: it gives {:08x}, not {answer:08x}",
                given.to_bits()
            ));
        }
    }
    Ok(())
}

/// What to run: the boundary triples, then blocks of generated ones, hard and
/// uniform by turns.
pub struct Plan {
    seed: u64,
    generated: u64,
}

impl Plan {
    /// A plan with at least `triples` in all.
    pub fn at_least(triples: u64, seed: u64) -> Plan {
        Plan::generating(triples.saturating_sub(BOUNDARY_TRIPLES), seed)
    }

    /// A plan with at least `triples` generated after the boundary's.
    pub fn generating(triples: u64, seed: u64) -> Plan {
        let generated = 2 * triples.div_ceil(2 * BLOCK);
        Plan { seed, generated }
    }

    /// How many triples will be run.
    pub fn triples(&self) -> u64 {
        BOUNDARY_TRIPLES + self.generated * BLOCK
    }

    /// Compares `ours` with the machine on one block. The first is the
    /// boundary's, the odd ones are hard, the others are uniform.
    fn check_block(
        &self,
        block: u64,
        ours: impl Fn(f32, f32, f32) -> f32,
    ) -> Result<u64, FusedDifference> {
        match block {
            0 => check_triples(patterns::boundary(), ours),
            _ if block % 2 == 1 => check_triples(patterns::structured(self.seed, block), ours),
            _ => check_triples(patterns::uniform(self.seed, block), ours),
        }
    }
}

/// How many triples `plan` has, if `ours` agrees with the machine on all of
/// them, else the first that differs.
pub fn check(
    plan: &Plan,
    threads: usize,
    ours: impl Fn(f32, f32, f32) -> f32 + Sync,
) -> Result<u64, FusedDifference> {
    let job = Job {
        name: "fused",
        unit: "triples",
        blocks: 1 + plan.generated,
        total: plan.triples(),
        threads,
    };
    blocks::run(&job, |block| plan.check_block(block, &ours))
}

/// Compares `ours` with the machine on `triples`.
fn check_triples(
    triples: impl Iterator<Item = Triple>,
    ours: impl Fn(f32, f32, f32) -> f32,
) -> Result<u64, FusedDifference> {
    let mut count = 0;
    for triple in triples {
        if let Some(found) = difference(triple, &ours) {
            return Err(found);
        }
        count += 1;
    }
    Ok(count)
}

/// What `ours` and the machine give for `inputs`, if they differ.
fn difference(inputs: Triple, ours: impl Fn(f32, f32, f32) -> f32) -> Option<FusedDifference> {
    let [a, b, c] = inputs.map(f32::from_bits);
    let (ours, machine) = (ours(a, b, c), machine(a, b, c));
    if same(ours, machine) {
        return None;
    }
    Some(FusedDifference {
        inputs,
        ours: ours.to_bits(),
        machine: machine.to_bits(),
    })
}

#[cfg(test)]
mod tests {
    use super::*;

    /// The product rounded, then the sum.
    fn twice(a: f32, b: f32, c: f32) -> f32 {
        a * b + c
    }

    /// The sum rounded to twice the bits, then to single.
    fn by_double(a: f32, b: f32, c: f32) -> f32 {
        (f64::from(a) * f64::from(b) + f64::from(c)) as f32
    }

    /// The machine's answer, but one place off at `wrong`.
    fn wrong_at(wrong: Triple) -> impl Fn(f32, f32, f32) -> f32 + Sync {
        move |a, b, c| {
            let off = u32::from([a, b, c].map(f32::to_bits) == wrong);
            f32::from_bits(machine(a, b, c).to_bits() ^ off)
        }
    }

    fn small() -> Plan {
        Plan::generating(6 * BLOCK, 1)
    }

    #[test]
    fn this_machine_is_trusted() {
        assert_eq!(trust(machine), Ok(()));
    }

    #[test]
    fn machines_that_round_twice_are_refused() {
        assert!(trust(twice).unwrap_err().contains("28800000"));
        assert!(trust(by_double).unwrap_err().contains("3f801001"));
    }

    #[test]
    fn the_machine_agrees_with_itself() {
        let plan = small();
        assert_eq!(check(&plan, 2, machine), Ok(plan.triples()));
    }

    #[test]
    fn a_plan_has_at_least_what_was_asked() {
        for asked in [0, 1, BOUNDARY_TRIPLES, BOUNDARY_TRIPLES + 1, LONG] {
            let plan = Plan::at_least(asked, 1);
            assert!(plan.triples() >= asked.max(BOUNDARY_TRIPLES));
            assert!(plan.triples() < asked.max(BOUNDARY_TRIPLES) + 2 * BLOCK);
        }
        assert!(Plan::generating(SHORT, 1).triples() >= SHORT + BOUNDARY_TRIPLES);
    }

    #[test]
    fn one_wrong_triple_is_reported_whatever_the_threads() {
        let boundary = [0x3f80_0001, 0x3f80_0001, 0x3380_0000];
        let ordinary = |t: &Triple| machine_bits(t) & 0x7fff_ffff < 0x7f80_0000;
        let hard = patterns::structured(1, 3).filter(ordinary).last().unwrap();
        let uniform = patterns::uniform(1, 6).filter(ordinary).last().unwrap();
        for wrong in [boundary, hard, uniform] {
            for threads in [1, 2, 3] {
                let found = check(&small(), threads, wrong_at(wrong)).unwrap_err();
                assert_eq!(found.inputs, wrong);
                assert_eq!(found.machine, machine_bits(&wrong));
                assert_eq!(found.ours, found.machine ^ 1);
            }
        }
    }

    fn machine_bits(triple: &Triple) -> u32 {
        let [a, b, c] = triple.map(f32::from_bits);
        machine(a, b, c).to_bits()
    }

    #[test]
    fn rounding_twice_is_found_in_every_kind_of_block() {
        let plan = small();
        assert!(plan.check_block(0, twice).is_err());
        assert!(plan.check_block(1, twice).is_err());
        assert!(plan.check_block(2, twice).is_err());
    }

    #[test]
    fn twice_the_bits_are_found_to_be_too_few() {
        assert!(small().check_block(1, by_double).is_err());
    }

    #[test]
    fn a_zero_of_the_wrong_sign_and_a_number_for_nan_are_found() {
        let zero = |a, b, c| match machine(a, b, c) {
            0.0 => -0.0,
            right => right,
        };
        let found = check(&small(), 2, zero).unwrap_err();
        assert_eq!((found.ours, found.machine), (1 << 31, 0));
        let number = |a, b, c| match machine(a, b, c) {
            right if right.is_nan() => 1.0,
            right => right,
        };
        let found = check(&small(), 2, number).unwrap_err();
        assert!(f32::from_bits(found.machine).is_nan());
        assert_eq!(found.ours, 0x3f80_0000);
    }
}
