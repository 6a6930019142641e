//! The C library's two functions, declared so that `speed` can point at them.
#![allow(unsafe_code)]

// Safe to call with every input: C says so of all of <math.h>'s functions on
// numbers alone. Rust's own `sqrt` becomes an instruction and calls nothing.
unsafe extern "C" {
    /// C's square root.
    pub safe fn sqrtf(x: f32) -> f32;

    /// C's fused multiply-add.
    pub safe fn fmaf(a: f32, b: f32, c: f32) -> f32;
}
