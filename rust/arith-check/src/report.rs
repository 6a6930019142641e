//! What counts as a difference, and the lines that say what was found.

use std::fmt;

/// Whether two results count as one: every NaN is as good as every other, but
/// +0 and -0 differ.
pub fn same(ours: f32, machine: f32) -> bool {
    ours.to_bits() == machine.to_bits() || (ours.is_nan() && machine.is_nan())
}

/// An input whose square root came out otherwise than the machine's.
#[derive(Clone, Copy, Debug, PartialEq, Eq)]
pub struct RootDifference {
    /// The pattern that was given.
    pub input: u32,
    /// What our function made of it.
    pub ours: u32,
    /// What the machine made of it.
    pub machine: u32,
}

/// Three inputs whose fused result came out otherwise than the machine's.
#[derive(Clone, Copy, Debug, PartialEq, Eq)]
pub struct FusedDifference {
    /// The patterns of the two factors and of the addend.
    pub inputs: [u32; 3],
    /// What our function made of them.
    pub ours: u32,
    /// What the machine made of them.
    pub machine: u32,
}

/// A pattern in hexadecimal with the number that it stands for.
struct Pattern(u32);

impl fmt::Display for Pattern {
    fn fmt(&self, f: &mut fmt::Formatter) -> fmt::Result {
        write!(f, "{:08x} ({:e})", self.0, f32::from_bits(self.0))
    }
}

impl fmt::Display for RootDifference {
    fn fmt(&self, f: &mut fmt::Formatter) -> fmt::Result {
        let [input, ours, machine] = [self.input, self.ours, self.machine].map(Pattern);
        write!(f, "at {input}: ours {ours}, the machine's {machine}")
    }
}

impl fmt::Display for FusedDifference {
    fn fmt(&self, f: &mut fmt::Formatter) -> fmt::Result {
        let [a, b, c] = self.inputs.map(Pattern);
        let [ours, machine] = [self.ours, self.machine].map(Pattern);
        write!(
            f,
            "at {a} × {b} + {c}: ours {ours}, the machine's {machine}"
        )
    }
}

/// The last line of a root run.
pub fn root_line(result: &Result<u64, RootDifference>) -> String {
    match result {
        Ok(patterns) => format!("root: {patterns} patterns, 0 differ"),
        Err(difference) => format!("root: differs {difference}"),
    }
}

/// The last line of a fused run.
pub fn fused_line(result: &Result<u64, FusedDifference>, seed: u64) -> String {
    match result {
        Ok(triples) => format!("fused: {triples} triples, 0 differ (seed {seed})"),
        Err(difference) => format!("fused: differs {difference} (seed {seed})"),
    }
}

#[cfg(test)]
mod tests {
    use super::*;

    fn same_bits(ours: u32, machine: u32) -> bool {
        same(f32::from_bits(ours), f32::from_bits(machine))
    }

    #[test]
    fn every_nan_is_the_same() {
        assert!(same_bits(0x7fc0_0000, 0xffc0_0000));
        assert!(same_bits(0x7f80_0001, 0x7fff_ffff));
        assert!(!same_bits(0x7fc0_0000, 0x7f80_0000));
        assert!(!same_bits(0x3f80_0000, 0x7fc0_0000));
    }

    #[test]
    fn zeros_of_other_signs_differ() {
        assert!(same_bits(0, 0));
        assert!(!same_bits(0, 0x8000_0000));
        assert!(!same_bits(0x8000_0000, 0));
    }

    #[test]
    fn neighbours_differ() {
        assert!(same_bits(0x3f80_0000, 0x3f80_0000));
        assert!(!same_bits(0x3f80_0000, 0x3f80_0001));
        assert!(!same_bits(0x7f80_0000, 0xff80_0000));
    }

    #[test]
    fn success_lines_are_the_promised_ones() {
        let all = 1 << 32;
        assert_eq!(root_line(&Ok(all)), "root: 4294967296 patterns, 0 differ");
        assert_eq!(
            fused_line(&Ok(20), 7),
            "fused: 20 triples, 0 differ (seed 7)"
        );
    }

    #[test]
    fn a_difference_names_every_pattern() {
        let inputs = [0x3f80_0001, 0x4000_0000, 0xbf80_0000];
        let (ours, machine) = (0x0000_0001, 0x7f80_0000);
        let found = FusedDifference {
            inputs,
            ours,
            machine,
        };
        let line = fused_line(&Err(found), 7);
        for pattern in ["3f800001", "40000000", "bf800000", "00000001", "7f800000"] {
            assert!(line.contains(pattern), "{line}");
        }
    }
}
