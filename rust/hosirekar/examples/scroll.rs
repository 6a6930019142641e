//! A screen that scrolls over the faces of a panel: each is built when it first comes into view, all
//! into one set of buffers, and drawn by its own indices.

use hosirekar::{layout::Layout, Fringe, HeightMap, Job, Mesh, ReadyHeightMap, Refusal};
use std::error::Error;

/// How many faces the screen shows.
const VIEW: usize = 12;

fn main() -> Result<(), Box<dyn Error>> {
    let map = panel()?;
    let ready = map.ready();
    let faces = ready.faces()?;
    let mut screen = Screen {
        mesh: Mesh::zeroed(ready.plan()?)?,
        built: vec![false; faces],
    };
    // From the middle to the end, then back to the beginning.
    let down = (faces / 2..faces - VIEW).step_by(5);
    let up = (0..=faces - VIEW).rev();
    let mut triangles = 0;
    for first in down.chain(up) {
        triangles += screen.show(&ready, first)?;
    }
    assert!(screen.built.iter().all(|built| *built));
    assert_eq!(screen.mesh, map.build()?);
    println!("{faces} faces, each built once; {triangles} triangles drawn");
    Ok(())
}

/// A hill of hexagons about a cell, walled to the ground.
fn panel() -> Result<HeightMap, Box<dyn Error>> {
    let cells = (-3..=3).flat_map(|q| (-3..=3).map(move |r| (q, r)));
    let inside = cells.filter(|(q, r): &(i32, i32)| (q + r).abs() <= 3);
    let heights = inside.map(|(q, r)| ((q, r), (8 - q * q - r * r - q * r) as f32));
    let mut map = HeightMap::from_heights(&Layout::flat(), heights)?;
    map.fringe = Fringe::Heights(vec![[-2.0; 6]; map.cells.len()]);
    Ok(map)
}

/// The buffers that are drawn from, and which faces they have.
struct Screen {
    mesh: Mesh,
    built: Vec<bool>,
}

impl Screen {
    /// Builds what is not there yet of the faces in view, and draws them: how many triangles.
    fn show(&mut self, map: &ReadyHeightMap<'_>, first: usize) -> Result<usize, Refusal> {
        let mut triangles = 0;
        for face in first..first + VIEW {
            if !self.built[face] {
                map.build_face(face, &mut self.mesh.buffers())?;
                self.built[face] = true;
            }
            triangles += draw(&self.mesh, map.window(face)?.indices);
        }
        Ok(triangles)
    }
}

/// Where a real screen would hand these indices to its graphics card.
fn draw(mesh: &Mesh, indices: std::ops::Range<usize>) -> usize {
    mesh.indices[indices].len() / 3
}
