//! Writes meshes into a folder as binary STL files, or prints what the reader has of such files.
//!
//! `stl_files write FOLDER` and `stl_files read FILE..`. The script `tools/outside-readers` runs both, and
//! holds them to what other programs read and write.

use hosirekar::layout::{Hex, Layout};
use hosirekar::{Column, FaceOptions, Fringe, HeightMap, InsetOptions, Job, Mesh, Plane};
use std::error::Error;
use std::io::{self, BufWriter, Write};
use std::path::Path;

/// The most triangles that can be read.
const READABLE: usize = 21_845;

/// A quarter turn about x, so that z is up.
const Z_UP: [[f32; 3]; 3] = [[1.0, 0.0, 0.0], [0.0, 0.0, -1.0], [0.0, 1.0, 0.0]];

fn main() -> Result<(), Box<dyn Error>> {
    let arguments: Vec<String> = std::env::args().skip(1).collect();
    let words: Vec<&str> = arguments.iter().map(String::as_str).collect();
    match words[..] {
        ["write", folder] => write(Path::new(folder)),
        ["read", ref files @ ..] => read(files),
        _ => Err("stl_files write FOLDER, or stl_files read FILE..".into()),
    }
}

/// A file for each mesh.
fn write(folder: &Path) -> Result<(), Box<dyn Error>> {
    for (name, mesh) in meshes()? {
        let file = mesh.to_stl()?;
        std::fs::write(folder.join(name).with_extension("stl"), file)?;
    }
    Ok(())
}

fn meshes() -> Result<Vec<(&'static str, Mesh)>, Box<dyn Error>> {
    let corners = Layout::flat().center_aligned_corners();
    let column = Column::new(corners, 2.0);
    let parts = |count| Column {
        subdivisions: Some(count),
        ..column
    };
    let mut readable = parts(1_820).build()?;
    readable.indices.truncate(3 * READABLE);
    Ok(vec![
        ("column", column.build()?),
        ("subdivided", parts(8).build()?),
        ("sevenths", parts(7).build()?),
        ("standing", standing().build()?),
        ("panel", panel()?.build()?),
        ("map", hill()?.build()?),
        ("plane", inset_plane().build()?),
        ("wall", wall().build()?),
        ("readable", readable),
        ("longest", parts(2_730).build()?),
    ])
}

/// A closed column as a mill has it: pointy, z up, and not at the origin.
fn standing() -> Column {
    Column {
        position: [12.5, -3.25],
        rotation: Some(Z_UP),
        ..Column::new(Layout::pointy().center_aligned_corners(), 3.3)
    }
}

fn rim() -> FaceOptions {
    FaceOptions {
        insetting: Some(InsetOptions {
            scale: 0.2,
            keep_inner_face: true,
            ..InsetOptions::default()
        }),
        ..FaceOptions::default()
    }
}

/// The panel of the README.
fn panel() -> Result<HeightMap, Box<dyn Error>> {
    let heights = [((0, 0), 4.0), ((1, 0), 3.0), ((0, 1), 2.0), ((-1, 1), 2.0)];
    let mut map = HeightMap::from_heights(&Layout::pointy(), heights)?;
    map.fringe = Fringe::Heights(vec![[0.0; 6]; map.cells.len()]);
    map.caps = Some(rim());
    map.rotation = Some(Z_UP);
    Ok(map)
}

/// A hill of 271 cells, walled to the ground.
fn hill() -> Result<HeightMap, Box<dyn Error>> {
    let all = (-9..=9).flat_map(|q| (-9..=9).map(move |r| (q, r)));
    let cells = all.filter(|(q, r): &Hex| (q + r).abs() <= 9);
    let heights = cells.map(|(q, r)| ((q, r), 9.0 - (q * q + r * r + q * r) as f32 / 10.0));
    let mut map = HeightMap::from_heights(&Layout::flat(), heights)?;
    map.fringe = Fringe::Heights(vec![[0.0; 6]; map.cells.len()]);
    Ok(map)
}

fn inset_plane() -> Plane {
    Plane {
        options: rim(),
        ..Plane::new(Layout::pointy().center_aligned_corners())
    }
}

/// The one side of the README's sheet, in two parts.
fn wall() -> Column {
    let mut wall = Column {
        subdivisions: Some(2),
        top: None,
        bottom: None,
        sides: [None; 6],
        ..Column::new([[0.0; 2]; 6], 2.0)
    };
    wall.side_ends[0] = [[1.0, 1.0], [1.0, -1.0]];
    wall.sides[0] = Some(FaceOptions::default());
    wall
}

/// A line for each file; of a mesh then a line for each vertex and one for all indices.
fn read(files: &[&str]) -> Result<(), Box<dyn Error>> {
    let mut out = BufWriter::new(io::stdout().lock());
    for file in files {
        match Mesh::from_stl(&std::fs::read(file)?) {
            Ok(mesh) => print(&mut out, &mesh)?,
            Err(why) => writeln!(out, "refused: {why:?}")?,
        }
    }
    out.flush()?;
    Ok(())
}

/// The counts, then the patterns of each vertex (position, normal, uv), then the indices.
fn print(out: &mut impl Write, mesh: &Mesh) -> io::Result<()> {
    writeln!(out, "read: {} {}", mesh.vertices.len(), mesh.indices.len())?;
    let lists = mesh.vertices.iter().zip(&mesh.normals).zip(&mesh.uvs);
    for ((position, normal), uv) in lists {
        let numbers = position.iter().chain(normal).chain(uv);
        let patterns: Vec<String> = numbers.map(|x| format!("{:08x}", x.to_bits())).collect();
        writeln!(out, "{}", patterns.join(" "))?;
    }
    let indices: Vec<String> = mesh.indices.iter().map(u16::to_string).collect();
    writeln!(out, "{}", indices.join(" "))
}
