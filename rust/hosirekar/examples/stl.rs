//! Writes a small panel to a binary STL file, z up as a mill has it, and reads it back.
//!
//! `cargo run --release --example stl -- panel.stl`

use hosirekar::{layout::Layout, FaceOptions, Fringe, HeightMap, InsetOptions, Job, Mesh};
use std::error::Error;
use std::fs::{self, File};

fn main() -> Result<(), Box<dyn Error>> {
    let path = std::env::args_os().nth(1).ok_or("name the file to write")?;
    let panel = panel()?;
    panel.write_stl(File::create(&path)?)?;
    let read = Mesh::from_stl(&fs::read(&path)?)?;
    if corners(&read) != corners(&panel) {
        return Err("a corner was read back otherwise than it was written".into());
    }
    let triangles = read.indices.len() / 3;
    println!("{triangles} triangles written and read back, all corners the same");
    Ok(())
}

/// The panel of the example `heightmap`.
fn panel() -> Result<Mesh, Box<dyn Error>> {
    let heights = [((0, 0), 4.0), ((1, 0), 3.0), ((0, 1), 2.0), ((-1, 1), 2.0)];
    let mut map = HeightMap::from_heights(&Layout::pointy(), heights)?;
    map.fringe = Fringe::Heights(vec![[0.0; 6]; map.cells.len()]);
    let rim = InsetOptions {
        scale: 0.2,
        keep_inner_face: true,
        ..InsetOptions::default()
    };
    map.caps = Some(FaceOptions {
        insetting: Some(rim),
        ..FaceOptions::default()
    });
    map.rotation = Some([[1.0, 0.0, 0.0], [0.0, 0.0, -1.0], [0.0, 1.0, 0.0]]);
    Ok(map.build()?)
}

/// The corners of all triangles in their order, by their bits.
fn corners(mesh: &Mesh) -> Vec<[u32; 3]> {
    let corner = |index: &u16| mesh.vertices[usize::from(*index)].map(f32::to_bits);
    mesh.indices.iter().map(corner).collect()
}
