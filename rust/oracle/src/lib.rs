//! hexx's own mesh files, compiled as they are, over tables in place of its
//! layout and its maps, and what is asked of them.

pub mod answers;
pub mod arguments;
#[cfg(feature = "archive")]
pub mod buffers;
pub mod builder_cases;
pub mod builder_record;
pub mod builders;
pub mod cases;
#[cfg(feature = "archive")]
pub mod compare;
#[cfg(feature = "archive")]
pub mod differences;
pub mod digest;
pub mod distance;
pub mod job_faults;
pub mod job_runs;
pub mod job_words;
#[cfg(feature = "archive")]
pub mod limits;
pub mod line;
#[cfg(feature = "archive")]
pub mod map_call_faults;
#[cfg(feature = "archive")]
pub mod map_calls;
pub mod map_cases;
#[cfg(feature = "archive")]
pub mod map_compare;
#[cfg(feature = "archive")]
pub mod map_differences;
pub mod map_draws;
pub mod map_faults;
#[cfg(feature = "archive")]
pub mod map_fills;
pub mod map_grounds;
pub mod map_limits;
pub mod map_runs;
pub mod map_steps;
pub mod map_words;
pub mod map_zeros;
pub mod maps;
pub mod mesh_cases;
pub mod mesh_record;
pub mod numbers;
#[cfg(feature = "archive")]
pub mod ours;
pub mod random;
pub mod record;
pub mod replay_record;
pub mod room;
#[cfg(feature = "archive")]
pub mod safe;
#[cfg(feature = "archive")]
pub mod safe_calls;
pub mod shapes;
pub mod steps;
pub mod storage;
#[cfg(feature = "archive")]
pub mod stored;
mod table;
pub mod value_words;

include!(concat!(env!("OUT_DIR"), "/mesh.rs"));

// The mesh files look for these at the crate's root.
pub use mesh::*;
pub use table::{EdgeDirection, Hex, HexLayout, Place};

/// What answered: the versions of glam and of the compiler.
pub const MADE_WITH: &str = concat!("glam ", env!("GLAM_VERSION"), ", ", env!("RUSTC_VERSION"));
