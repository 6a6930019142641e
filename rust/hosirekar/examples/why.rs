//! Tells of each side of two cells why it has a wall or has none.

use hosirekar::{layout::Layout, Fringe, HeightMap};
use std::error::Error;

/// A line for each side, and one for the wall between the cells.
pub fn told() -> Result<Vec<String>, Box<dyn Error>> {
    let heights = [((0, 0), 2.0), ((1, 0), 1.0)];
    let mut map = HeightMap::from_heights(&Layout::flat(), heights)?;
    map.fringe = Fringe::None;
    let ready = map.ready();
    let mut lines = Vec::new();
    for cell in 0..map.cells.len() {
        for side in 0..6 {
            let why = ready.why(cell, side)?;
            lines.push(format!("cell {cell}, side {side}: {why}"));
        }
    }
    lines.push(format!("face 1: {}", ready.which(1)?));
    Ok(lines)
}

fn main() -> Result<(), Box<dyn Error>> {
    for line in told()? {
        println!("{line}");
    }
    Ok(())
}
