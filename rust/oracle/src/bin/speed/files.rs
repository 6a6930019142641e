//! Binary STL files: writing and reading beside a copy of the same bytes.

use crate::rows::{Headed, Rows, least};
use hosirekar::layout::Layout;
use hosirekar::{Column, Job as _, Mesh, Refusal};
use hosirekar_sys::{CCounts, hosirekar_stl_read, hosirekar_stl_write};
use oracle::buffers::{Buffers, Lent};
use oracle::room::lengths;
use std::hint::black_box;

/// The most triangles that can be read.
const READABLE: usize = 21_845;

/// A closed column of so many parts a side.
fn column(parts: u32) -> Result<Mesh, Refusal> {
    let corners = Layout::flat().center_aligned_corners();
    let column = Column {
        subdivisions: Some(parts),
        ..Column::new(corners, 2.0)
    };
    column.build()
}

/// The greatest mesh that can be read. No two of its triangles share a vertex.
fn readable() -> Result<Mesh, Refusal> {
    let mut mesh = column(1_820)?;
    mesh.indices.truncate(3 * READABLE);
    Mesh::from_stl(&mesh.to_stl()?)
}

/// A small file, the greatest that can be read, and the greatest column.
pub fn tell(rows: &Rows) {
    let mut table = Headed::by(&[
        "file, ns a triangle",
        "copy",
        "write",
        "ratio",
        "to_stl",
        "ratio",
        "read",
        "ratio",
        "from_stl",
        "ratio",
    ]);
    let meshes = [column(1), readable(), column(2_730)];
    for mesh in meshes.map(|mesh| mesh.expect("a mesh that is taken")) {
        let triangles = mesh.indices.len() / 3;
        let name = format!("{triangles} triangles, {} vertices", mesh.vertices.len());
        if rows.has(&name) {
            let times = times(&mesh).map(|time| time * 1e9 / triangles as f64);
            table.row(&format!("| {name} | {} |", cells(times)));
        }
    }
}

/// The time of the copy, and every other with its ratio to that.
fn cells([copy, others @ ..]: [f64; 5]) -> String {
    let beside = |time: f64| match time.is_finite() {
        true => format!("{time:.2} | {:.2}", time / copy),
        false => "- | -".to_string(),
    };
    format!("{copy:.2} | {}", others.map(beside).join(" | "))
}

/// Seconds of the copy, of writing into lent bytes and into new ones, and of
/// reading likewise, where the file can be read.
fn times(mesh: &Mesh) -> [f64; 5] {
    let file = &mesh.to_stl().expect("a mesh that is taken");
    let [mut copied, mut written] = [(); 2].map(|()| vec![0xa5; file.len()]);
    let count = mesh.indices.len();
    let mut lent = Buffers::marked(lengths([count; 2]));
    let mut copy = || {
        copied.copy_from_slice(black_box(file));
        black_box(&mut copied);
    };
    let mut write = || {
        write(black_box(mesh), &mut written);
        black_box(&mut written);
    };
    let mut to_stl = || assert!(black_box(black_box(mesh).to_stl()).is_ok());
    let mut read = || {
        read(black_box(file), lent.lent());
        black_box(&mut lent);
    };
    let mut from_stl = || assert!(black_box(Mesh::from_stl(black_box(file))).is_ok());
    let mut sides: Vec<&mut dyn FnMut()> = vec![&mut copy, &mut write, &mut to_stl];
    if count <= 3 * READABLE {
        sides.push(&mut read);
        sides.push(&mut from_stl);
    }
    let mut all = [f64::INFINITY; 5];
    let times = least(&mut sides);
    all[..times.len()].copy_from_slice(&times);
    assert!(copied == *file && written == *file);
    all
}

fn write(mesh: &Mesh, bytes: &mut [u8]) {
    let counts = CCounts {
        vertices: mesh.vertices.len(),
        indices: mesh.indices.len(),
    };
    let answer = hosirekar_stl_write(
        counts,
        mesh.vertices.as_flattened(),
        mesh.normals.as_flattened(),
        mesh.uvs.as_flattened(),
        &mesh.indices,
        bytes,
    );
    assert_eq!(answer.answer.number, 0);
}

fn read(file: &[u8], to: Lent) {
    let answer = hosirekar_stl_read(file, to.vertices, to.normals, to.uvs, to.indices);
    assert_eq!(answer.number, 0);
}
