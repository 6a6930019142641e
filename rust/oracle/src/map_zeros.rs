//! The one difference that height maps without a turn may have: where heights
//! hold both zeros, hexx may begin or end its range with the later one.

use crate::MeshInfo;
use crate::line::bits;
use crate::map_runs::has_both_zeros;
use crate::map_steps::{OVER_HEXX, faces, joined, range};
use crate::maps::Map;

/// The range with other signs of zero ends, where heights hold both zeros.
pub fn other_ends(map: &Map) -> impl Iterator<Item = [f32; 2]> + use<> {
    let [min, max] = range(&OVER_HEXX, map);
    let signs = [[1.0, -1.0], [-1.0, 1.0], [-1.0, -1.0]];
    let any = map.range.is_none() && has_both_zeros(map);
    let others = signs.map(|[a, b]| [other(min, a), other(max, b)]);
    others.into_iter().filter(move |_| any)
}

/// A zero with another sign, and any other number as it is.
fn other(end: f32, by: f32) -> f32 {
    if end == 0.0 { end * by } else { end }
}

/// What heights of both zeros show of a map without a turn.
#[derive(Debug, Clone, Copy, PartialEq, Eq)]
pub enum Zeros {
    /// They are not there, or a range is given.
    None,
    /// No mesh would tell one end from the other.
    Hidden,
    /// hexx has the end that the scope keeps.
    Same,
    /// hexx has the other one.
    Other,
}

/// The mesh that a map without a turn should have: hexx's own, or that of the
/// steps over hexx's faces where hexx's is the same with another zero end.
#[must_use]
pub fn wanted(map: &Map) -> (MeshInfo, Zeros) {
    let hexx = map.hexx();
    let mut ends = other_ends(map).peekable();
    if ends.peek().is_none() {
        return (hexx, Zeros::None);
    }
    let with = |ends| MeshInfo::from(&joined(&faces(&OVER_HEXX, map, ends)));
    let kept = with(range(&OVER_HEXX, map));
    let [is, should] = [&hexx, &kept].map(words);
    let others: Vec<Vec<u32>> = ends.map(|ends| words(&with(ends))).collect();
    let zeros = match is == should {
        true if others.iter().all(|other| *other == should) => Zeros::Hidden,
        true => Zeros::Same,
        false if others.contains(&is) => Zeros::Other,
        // Not to be explained by a zero: it must show.
        false => return (hexx, Zeros::Same),
    };
    (kept, zeros)
}

/// All that a mesh has, all NaNs equal.
fn words(mesh: &MeshInfo) -> Vec<u32> {
    let threes = mesh.vertices.iter().chain(&mesh.normals);
    let threes = threes.flat_map(|v| v.to_array());
    let twos = mesh.uvs.iter().flat_map(|v| v.to_array());
    let indices = mesh.indices.iter().map(|&index| u32::from(index));
    threes.chain(twos).map(bits).chain(indices).collect()
}
