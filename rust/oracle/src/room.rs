//! Which list is too short for a mesh: the first of vertices, normals, uvs and
//! indices.

/// The number of a list that is short.
#[must_use]
pub const fn number(list: usize) -> u32 {
    51 + list as u32
}

/// What the four lists of a mesh need: three numbers a vertex, three, two, and
/// one an index.
#[must_use]
pub const fn lengths([vertices, indices]: [usize; 2]) -> [usize; 4] {
    [3 * vertices, 3 * vertices, 2 * vertices, indices]
}

/// The first list that is shorter than what is needed of it.
#[must_use]
pub fn first_short(lent: [usize; 4], need: [usize; 4]) -> Option<usize> {
    (0..4).find(|&list| lent[list] < need[list])
}
