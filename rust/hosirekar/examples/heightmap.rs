//! A small panel for a mill. The README shows this program.

use hosirekar::{layout::Layout, FaceOptions, Fringe, HeightMap, InsetOptions, Job};

#[rustfmt::skip]
fn main() -> Result<(), Box<dyn std::error::Error>> {
    let heights = [((0, 0), 4.0), ((1, 0), 3.0), ((0, 1), 2.0), ((-1, 1), 2.0)];
    let mut map = HeightMap::from_heights(&Layout::pointy(), heights)?;
    // Walls down to 0 about the panel, a rim on each cap, and z up.
    map.fringe = Fringe::Heights(vec![[0.0; 6]; map.cells.len()]);
    let rim = InsetOptions { scale: 0.2, keep_inner_face: true, ..Default::default() };
    map.caps = Some(FaceOptions { insetting: Some(rim), ..Default::default() });
    map.rotation = Some([[1.0, 0.0, 0.0], [0.0, 0.0, -1.0], [0.0, 1.0, 0.0]]);
    let mesh = map.build()?;
    println!("{} vertices, {} triangles", mesh.vertices.len(), mesh.indices.len() / 3);
    Ok(())
}
