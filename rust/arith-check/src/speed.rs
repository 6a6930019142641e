//! How long our functions take beside the C library's, in one process and run.
//!
//! Both sides are called through pointers that the compiler cannot see
//! through. Were it to see `sqrtf`, it would put the machine's instruction in
//! the call's place, and only we would pay for a call.

use std::fmt;
use std::hint::black_box;
use std::time::Instant;

use crate::clib;
use crate::patterns::{ordinary, scaled};
use crate::random::Random;

/// How many inputs a set has: they fit the second-level cache.
const INPUTS: usize = 65_536;

/// How often a set is gone through for one reading of the clock.
const PASSES: usize = 8;

/// How many readings each side gets; the best one counts.
const REPETITIONS: usize = 15;

type Root = extern "C" fn(f32) -> f32;
type Fused = extern "C" fn(f32, f32, f32) -> f32;

/// One line of the table; the times are nanoseconds for one call.
pub struct Row {
    function: &'static str,
    set: &'static str,
    measure: &'static str,
    ours: f64,
    theirs: f64,
}

/// The table's head.
pub fn head() -> String {
    format!(
        "{:8} {:9} {:10} {:>8} {:>8} {:>7}",
        "function", "set", "measure", "ours ns", "C ns", "ratio"
    )
}

impl fmt::Display for Row {
    fn fmt(&self, f: &mut fmt::Formatter) -> fmt::Result {
        write!(
            f,
            "{:8} {:9} {:10} {:8.2} {:8.2} {:7.2}",
            self.function,
            self.set,
            self.measure,
            self.ours,
            self.theirs,
            self.ours / self.theirs
        )
    }
}

/// Measures every function on every set in both ways.
pub fn table() -> Vec<Row> {
    let roots = ordinary_roots();
    let mut rows = vec![
        root_row("throughput", root_throughput, &roots),
        root_row("latency", root_latency, &roots),
    ];
    for (set, triples) in [
        ("ordinary", ordinary_triples()),
        ("mesher", mesher_triples()),
    ] {
        rows.push(fused_row(set, "throughput", fused_throughput, &triples));
        rows.push(fused_row(set, "latency", fused_latency, &triples));
    }
    rows
}

fn root_row(measure: &'static str, run: fn(Root, &[f32]) -> u32, inputs: &[f32]) -> Row {
    let (ours, theirs) = best(
        || run(hosirekar_sys::hosirekar_root, inputs),
        || run(clib::sqrtf, inputs),
    );
    Row {
        function: "root",
        set: "ordinary",
        measure,
        ours,
        theirs,
    }
}

fn fused_row(
    set: &'static str,
    measure: &'static str,
    run: fn(Fused, &[[f32; 3]]) -> u32,
    inputs: &[[f32; 3]],
) -> Row {
    let (ours, theirs) = best(
        || run(hosirekar_sys::hosirekar_fused, inputs),
        || run(clib::fmaf, inputs),
    );
    Row {
        function: "fused",
        set,
        measure,
        ours,
        theirs,
    }
}

/// The best times of both sides. They take turns, so that both see the
/// machine in the same state.
fn best(ours: impl Fn() -> u32, theirs: impl Fn() -> u32) -> (f64, f64) {
    let mut best = (f64::INFINITY, f64::INFINITY);
    for _ in 0..REPETITIONS {
        best.0 = best.0.min(time(&ours));
        best.1 = best.1.min(time(&theirs));
    }
    best
}

/// Nanoseconds for one call, over all passes through a set.
fn time(run: impl Fn() -> u32) -> f64 {
    let start = Instant::now();
    for _ in 0..PASSES {
        black_box(run());
    }
    start.elapsed().as_secs_f64() * 1e9 / (PASSES * INPUTS) as f64
}

/// Calls that do not wait for each other. Like the other measures it is never
/// inlined, so that both sides run through the very same loop.
#[inline(never)]
fn root_throughput(function: Root, inputs: &[f32]) -> u32 {
    let function = black_box(function);
    let bits = |x: &f32| function(*x).to_bits();
    inputs.iter().fold(0, |all, x| all ^ bits(x))
}

/// Calls each of which waits for the one before: its result's last bit goes
/// into the next input's, which stays as ordinary as it was.
#[inline(never)]
fn root_latency(function: Root, inputs: &[f32]) -> u32 {
    let function = black_box(function);
    inputs
        .iter()
        .fold(0, |last, x| function(with_last_bit(*x, last)).to_bits())
}

/// As for the root.
#[inline(never)]
fn fused_throughput(function: Fused, inputs: &[[f32; 3]]) -> u32 {
    let function = black_box(function);
    let bits = |[a, b, c]: &[f32; 3]| function(*a, *b, *c).to_bits();
    inputs.iter().fold(0, |all, triple| all ^ bits(triple))
}

/// As for the root; it is the first factor that waits, for it is never 0.
#[inline(never)]
fn fused_latency(function: Fused, inputs: &[[f32; 3]]) -> u32 {
    let function = black_box(function);
    inputs.iter().fold(0, |last, [a, b, c]| {
        function(with_last_bit(*a, last), *b, *c).to_bits()
    })
}

/// `x` with its last bit turned if that of `last` is set.
fn with_last_bit(x: f32, last: u32) -> f32 {
    f32::from_bits(x.to_bits() ^ last & 1)
}

/// A set of inputs, always the same.
fn set<T>(number: u64, mut make: impl FnMut(&mut Random) -> T) -> Vec<T> {
    let mut random = Random::for_block(0, number);
    (0..INPUTS).map(|_| make(&mut random)).collect()
}

/// A number of either sign from 2^`low` up to 2^`high`, every exponent as
/// often as every other.
fn magnitude(random: &mut Random, low: i32, high: i32) -> f32 {
    let exponent = random.between(low, high - 1);
    ordinary(random, exponent)
}

/// Positive numbers from 2^-20 up to 2^20.
fn ordinary_roots() -> Vec<f32> {
    set(1, |random| magnitude(random, -20, 20).abs())
}

/// Numbers of both signs from 2^-7 up to 2^8.
fn ordinary_triples() -> Vec<[f32; 3]> {
    set(2, |random| [0; 3].map(|_| magnitude(random, -7, 8)))
}

/// What a mesher asks for: the first factor 1 or small and positive, the
/// second from 0 to 1, the addend small and often +0.
fn mesher_triples() -> Vec<[f32; 3]> {
    set(3, |random| {
        let a = if random.once_in(2) {
            1.0
        } else {
            magnitude(random, -10, 0).abs()
        };
        let b = scaled(random.below((1 << 24) + 1), -24);
        let c = if random.once_in(4) {
            0.0
        } else {
            magnitude(random, -10, 0).abs()
        };
        [a, b, c]
    })
}

#[cfg(test)]
mod tests {
    use super::*;

    #[test]
    fn ordinary_sets_keep_their_ranges() {
        let roots = ordinary_roots();
        assert_eq!(roots.len(), INPUTS);
        let (low, high) = (scaled(1, -20), scaled(1, 20));
        assert!(roots.iter().all(|x| (low..high).contains(x)));
        let triples = ordinary_triples();
        let (low, high) = (scaled(1, -7), scaled(1, 8));
        let in_range = |x: &f32| (low..high).contains(&x.abs());
        assert!(triples.iter().all(|triple| triple.iter().all(in_range)));
        assert!((0..3).all(|place| triples.iter().any(|t| t[place] < 0.0)));
    }

    #[test]
    fn the_meshers_set_is_like_its_use() {
        let triples = mesher_triples();
        let ones = triples.iter().filter(|t| t[0] == 1.0).count();
        let zeros = triples.iter().filter(|t| t[2].to_bits() == 0).count();
        assert!(ones > INPUTS / 4 && zeros > INPUTS / 8);
        assert!(triples.iter().all(|t| t[0] > 0.0 && t[0] <= 1.0));
        assert!(triples.iter().all(|t| (0.0..=1.0).contains(&t[1])));
        assert!(triples.iter().all(|t| (0.0..1.0).contains(&t[2])));
    }

    #[test]
    fn the_last_bit_leaves_a_number_ordinary() {
        assert_eq!(with_last_bit(1.0, 2), 1.0);
        assert_eq!(with_last_bit(1.0, 3).to_bits(), 0x3f80_0001);
        assert_eq!(with_last_bit(1.5, 1).to_bits(), 0x3fc0_0001);
    }

    #[test]
    fn measures_call_the_function_on_every_input() {
        extern "C" fn same(x: f32) -> f32 {
            x
        }
        extern "C" fn third(_: f32, _: f32, c: f32) -> f32 {
            c
        }
        let inputs = [1, 2, 4].map(f32::from_bits);
        assert_eq!(root_throughput(same, &inputs), 7);
        assert_eq!(root_latency(same, &inputs), 5);
        let triples = inputs.map(|c| [1.0, 1.0, c]);
        assert_eq!(fused_throughput(third, &triples), 7);
        assert_eq!(fused_latency(third, &triples), 4);
    }
}
