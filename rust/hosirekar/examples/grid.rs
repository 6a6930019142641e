//! Writes seven columns and a ground plane to standard output, as a Wavefront OBJ file.
//!
//! `cargo run --release --example grid -- pointy > grid.obj`

use hosirekar::layout::{Hex, Layout};
use hosirekar::{CheapColumn, Column, FaceOptions, InsetOptions, Job, Mesh, Plane};
use std::error::Error;
use std::io::{self, BufWriter, Write};

/// A hexagon and its six neighbours, as q and r.
const HEXES: [Hex; 7] = [(0, 0), (1, 0), (0, 1), (-1, 1), (-1, 0), (0, -1), (1, -1)];

fn main() -> Result<(), Box<dyn Error>> {
    let layout = match std::env::args().nth(1).as_deref() {
        None | Some("flat") => Layout::flat(),
        Some("pointy") => Layout::pointy(),
        Some(other) => return Err(format!("`{other}` is neither flat nor pointy").into()),
    };
    let mesh = grid(&layout)?;
    let mut out = BufWriter::new(io::stdout().lock());
    write_obj(&mut out, &mesh)?;
    out.flush()?;
    Ok(())
}

/// A ground, six columns with a rim on top, and a cheap one in the middle.
fn grid(layout: &Layout) -> Result<Mesh, hosirekar::Refusal> {
    let corners = layout.center_aligned_corners();
    let ground = Plane {
        scale: Some([4.0, 1.0, 4.0]),
        ..Plane::new(corners)
    };
    let rim = FaceOptions {
        insetting: Some(InsetOptions {
            keep_inner_face: true,
            scale: 0.2,
            ..InsetOptions::default()
        }),
        ..FaceOptions::default()
    };
    let mut mesh = ground.build()?;
    for (k, hex) in (1u8..).zip(HEXES) {
        let height = f32::from(k) / 2.0;
        if hex == (0, 0) {
            let cheap = CheapColumn {
                corners: layout.corners(hex),
                centre: layout.position(hex),
                height,
            };
            mesh.add(&cheap)?;
        } else {
            let column = Column {
                top: Some(rim),
                bottom: None,
                position: layout.position(hex),
                ..Column::new(corners, height)
            };
            mesh.add(&column)?;
        }
    }
    Ok(mesh)
}

fn write_obj(out: &mut impl Write, mesh: &Mesh) -> io::Result<()> {
    for [x, y, z] in &mesh.vertices {
        writeln!(out, "v {x} {y} {z}")?;
    }
    for [u, v] in &mesh.uvs {
        writeln!(out, "vt {u} {v}")?;
    }
    for [x, y, z] in &mesh.normals {
        writeln!(out, "vn {x} {y} {z}")?;
    }
    for triangle in mesh.indices.chunks_exact(3) {
        // OBJ counts from 1.
        let corner = |k: usize| u32::from(triangle[k]) + 1;
        let [a, b, c] = [corner(0), corner(1), corner(2)];
        writeln!(out, "f {a}/{a}/{a} {b}/{b}/{b} {c}/{c}/{c}")?;
    }
    Ok(())
}
