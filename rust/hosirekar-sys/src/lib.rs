//! The functions of the proved archive, as C sees them, each under its own name and safe to call.
//!
//! A list goes over as a pointer and a length. Each function takes every input: it answers with a
//! number, 0 where it was done, and writes nothing where it was refused. Where a buffer is short, it names
//! the first and tells what it needs. `include/hosirekar.h` declares the same for C and C++.
#![no_std]

mod calls;
mod raw;
mod structs;

pub use calls::*;
pub use raw::{hosirekar_alter_uv, hosirekar_fused, hosirekar_root, hosirekar_wrap_uv};
pub use structs::*;
