//! How many results differ where the process flushes subnormal numbers to zero and reads them as
//! zero, which the proofs do not allow for. Numbers are drawn among the patterns of magnitude at
//! most 1,000,000; the counts are in docs/DIFFERENCES.md.

use hosirekar_sys::{hosirekar_fused, hosirekar_wrap_uv, CVec2};

const DRAWN: usize = 1_000_000;
const MILLION: u32 = 0x4974_2400;

/// The bits of the control word that flush results and read operands as zero.
const FLUSHED: u32 = 0x8040;

/// Sets the control word of this thread's float unit, and gives the one before.
fn control(word: u32) -> u32 {
    let mut before = 0_u32;
    // SAFETY: the two words are this function's own, and the control word is one that the
    // processor gave with bits that every x86-64 processor has.
    unsafe {
        std::arch::asm!("stmxcsr [{}]", in(reg) &mut before);
        std::arch::asm!("ldmxcsr [{}]", in(reg) &word);
    }
    before
}

struct Draw(u64);

impl Draw {
    fn number(&mut self) -> f32 {
        self.0 = self.0.wrapping_add(0x9e37_79b9_7f4a_7c15);
        let mut x = self.0;
        x = (x ^ (x >> 30)).wrapping_mul(0xbf58_476d_1ce4_e5b9);
        x = (x ^ (x >> 27)).wrapping_mul(0x94d0_49bb_1331_11eb);
        x ^= x >> 31;
        let magnitude = (x >> 32) as u32 % (MILLION + 1);
        f32::from_bits(magnitude | (x as u32 & 0x8000_0000))
    }
}

/// The bits of a result, all NaNs alike.
fn bits(x: f32) -> u32 {
    if x.is_nan() {
        0x7fc0_0000
    } else {
        x.to_bits()
    }
}

fn results(draw: &mut Draw) -> Vec<[u32; 3]> {
    (0..DRAWN)
        .map(|_| {
            let [a, b, c] = [draw.number(), draw.number(), draw.number()];
            let uv = hosirekar_wrap_uv(CVec2 { x: a, y: b });
            [bits(hosirekar_fused(a, b, c)), bits(uv.x), bits(uv.y)]
        })
        .collect()
}

fn main() {
    let right = results(&mut Draw(1));
    let usual = control(0x1f80 | FLUSHED);
    let flushed = results(&mut Draw(1));
    control(usual);
    let fused = right
        .iter()
        .zip(&flushed)
        .filter(|(r, f)| r[0] != f[0])
        .count();
    let wrapped = right
        .iter()
        .zip(&flushed)
        .filter(|(r, f)| r[1..] != f[1..])
        .count();
    println!("of {DRAWN} each: fused {fused} differ, wrap_uv {wrapped} differ");
}
