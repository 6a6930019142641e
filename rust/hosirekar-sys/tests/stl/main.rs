//! Binary STL files: by hand, every byte of what is written and every place of what is read; beside the plain
//! way, each refusal in its order with all later faults, lengths and counts about every edge, every place at
//! which a pattern can stand, and drawn meshes and files.

#[path = "../common/mod.rs"]
mod common;

mod both_ways;
mod reading;
mod writing;

use common::stl::{known_bytes, length, Reading, Writing};
use common::{done, needs, Mesh};
use hosirekar_sys::{CAnswer, CCounts, CFile};

/// The most triangles that are read.
const MOST: usize = 21_845;

/// The mesh of a column 2 high with one side, from (1, 1) to (1, -1).
fn wall() -> Mesh {
    Mesh {
        vertices: vec![1., 0., -1., 1., 2., -1., 1., 2., 1., 1., 0., 1.],
        normals: [1., 0., 0.].repeat(4),
        uvs: vec![1., 0., 1., 1., 0., 1., 0., 0.],
        indices: vec![2, 1, 0, 0, 3, 2],
    }
}

/// The file of that wall.
fn wall_file() -> Vec<u8> {
    let digits: String = WALL.split_whitespace().collect();
    let byte = |place| u8::from_str_radix(&digits[place..place + 2], 16).unwrap();
    let bytes = (0..digits.len()).step_by(2).map(byte);
    [0; 80].into_iter().chain(bytes).collect()
}

/// What it has after the header.
const WALL: &str = "
    02000000
    0000803f 00000000 00000000
    0000803f 00000040 0000803f
    0000803f 00000040 000080bf
    0000803f 00000000 000080bf
    0000
    0000803f 00000000 00000000
    0000803f 00000000 000080bf
    0000803f 00000000 0000803f
    0000803f 00000040 0000803f
    0000";

/// A mesh whose numbers tell their places, as far as neighbours go.
fn mesh(vertices: usize, indices: &[u16]) -> Mesh {
    let lengths = needs(vertices, indices.len());
    Mesh {
        indices: indices.to_vec(),
        ..Mesh::known(lengths)
    }
}

/// So many triangles, with vertices of their own as far as these go.
fn many(triangles: usize) -> Mesh {
    let indices: Vec<u16> = (0..3 * triangles).map(|k| (k % 65_536) as u16).collect();
    mesh(indices.len().min(65_536), &indices)
}

/// A file of so many triangles, with garbage in the header and the attributes.
fn some_file(triangles: usize) -> Vec<u8> {
    let mut file = known_bytes(length(triangles));
    file[80..84].copy_from_slice(&(triangles as u32).to_le_bytes());
    file
}

fn written(counts: CCounts, bytes: usize) -> CFile {
    let answer = done(counts.vertices, counts.indices);
    CFile { answer, bytes }
}

fn not_written(answer: CAnswer) -> CFile {
    CFile { answer, bytes: 0 }
}

/// A mesh as a file, in bytes of exactly its length.
fn bytes_of(mesh: &Mesh) -> Vec<u8> {
    let writing = Writing::exact(mesh.clone());
    let mut bytes = known_bytes(writing.room);
    let given = writing.call(&mut bytes);
    assert_eq!(given, written(mesh.counts(), bytes.len()));
    bytes
}

/// A file as a mesh, in lists of exactly its lengths.
fn mesh_of(bytes: &[u8]) -> Mesh {
    let triangles = (bytes.len() - 84) / 50;
    let reading = Reading::exact(bytes.to_vec(), triangles);
    let mut mesh = Mesh::known(reading.lent);
    let given = reading.call(&mut mesh);
    assert_eq!(given, done(3 * triangles, 3 * triangles));
    mesh
}
