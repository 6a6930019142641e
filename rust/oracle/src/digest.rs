//! The four lists of a mesh as they are lent to a call, and the digest of them
//! that the programs `replay` and `replay_maps` hold their own to.

use crate::MeshInfo;
use crate::line::bits;
use glam::Vec3;

/// What stands in each place before a call: no mesh of the record has it.
const KEPT: u32 = (-123_456.75_f32).to_bits();
/// See [`KEPT`].
const KEPT_INDEX: u32 = 43_981;

/// A prime a little above 2^32: a remainder by it changes with any one word.
/// Of each the last 32 bits are recorded, so such a change is lost only where
/// the old and the new remainder are 2^32 apart, in both.
const PRIME: u64 = 4_294_967_311;
const FACTORS: [u64; 2] = [2_654_435_761, 2_246_822_519];

/// Words read in order: two remainders by the prime.
#[derive(Debug, Clone, Copy)]
pub struct Digest([u64; 2]);

impl Default for Digest {
    fn default() -> Self {
        Self([1; 2])
    }
}

impl Digest {
    pub fn word(&mut self, word: u32) {
        for (lane, factor) in self.0.iter_mut().zip(FACTORS) {
            *lane = *lane % PRIME * factor + u64::from(word);
        }
    }

    pub fn floats(&mut self, floats: &[f32]) {
        floats.iter().for_each(|&x| self.word(bits(x)));
    }

    pub fn lists(&mut self, lists: &Lists) {
        lists.words().for_each(|word| self.word(word));
    }

    /// The last 32 bits of each remainder.
    #[must_use]
    pub fn words(&self) -> [u32; 2] {
        self.0.map(|lane| (lane % PRIME) as u32)
    }
}

/// Vertices, normals, uvs and indices as words.
#[derive(Debug, Clone)]
pub struct Lists(pub [Vec<u32>; 4]);

impl Lists {
    /// Lists of which no place has been written.
    #[must_use]
    pub fn kept(lengths: [usize; 4]) -> Self {
        let [v, n, u, i] = lengths;
        Self([
            vec![KEPT; v],
            vec![KEPT; n],
            vec![KEPT; u],
            vec![KEPT_INDEX; i],
        ])
    }

    /// The mesh's own.
    #[must_use]
    pub fn of(mesh: &MeshInfo) -> Self {
        let three = |all: &[Vec3]| all.iter().flat_map(|v| v.to_array().map(bits)).collect();
        Self([
            three(&mesh.vertices),
            three(&mesh.normals),
            mesh.uvs
                .iter()
                .flat_map(|v| v.to_array().map(bits))
                .collect(),
            mesh.indices.iter().map(|&i| u32::from(i)).collect(),
        ])
    }

    #[must_use]
    pub fn lengths(&self) -> [usize; 4] {
        [0, 1, 2, 3].map(|list| self.0[list].len())
    }

    /// Puts the places from `from` to `to` of each list of `other` here.
    pub fn lay(&mut self, other: &Self, from: [usize; 4], to: [usize; 4]) {
        for list in 0..4 {
            let places = from[list]..to[list];
            self.0[list][places.clone()].copy_from_slice(&other.0[list][places]);
        }
    }

    /// Whether no place of them holds what stands there before a call.
    #[must_use]
    pub fn tells(&self) -> bool {
        let [floats @ .., indices] = &self.0;
        let kept = floats.iter().flatten().any(|&word| word == KEPT);
        !kept && !indices.contains(&KEPT_INDEX)
    }

    /// All words in order.
    fn words(&self) -> impl Iterator<Item = u32> + '_ {
        self.0.iter().flatten().copied()
    }
}
