//! Compares the proved square root and fused multiply-add with the machine's,
//! bit for bit, and measures how long they take.
#![deny(unsafe_code)]

pub mod blocks;
pub mod clib;
pub mod exact;
pub mod fused;
pub mod options;
pub mod patterns;
pub mod random;
pub mod report;
pub mod root;
pub mod speed;
