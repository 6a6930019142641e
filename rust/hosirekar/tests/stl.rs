//! Meshes as binary STL files and back, held to a plain way of both: by hand, at the limits, refused, and drawn
//! with any bit patterns.

mod common;
use common::*;
use hosirekar::*;
use std::io::{self, ErrorKind, Write};

/// The most triangles that are read.
const MOST: usize = 21_845;

/// The one side of a column 2 high, from (1, 1) to (1, -1).
fn wall() -> Mesh {
    let mut column = Column {
        height: 2.0,
        sides: [None; 6],
        top: None,
        bottom: None,
        ..Column::default()
    };
    column.side_ends[0] = [[1.0, 1.0], [1.0, -1.0]];
    column.sides[0] = Some(FaceOptions::default());
    column.build().unwrap()
}

/// Its file after the header.
const WALL: &str = "
    02000000
    0000803f 00000000 00000000
    0000803f 00000040 0000803f
    0000803f 00000040 000080bf
    0000803f 00000000 000080bf
    0000
    0000803f 00000000 00000000
    0000803f 00000000 000080bf
    0000803f 00000000 0000803f
    0000803f 00000040 0000803f
    0000";

/// A file of these bytes after a header of zeros.
fn file(digits: &str) -> Vec<u8> {
    let digits: String = digits.split_whitespace().collect();
    let byte = |place| u8::from_str_radix(&digits[place..place + 2], 16).unwrap();
    let bytes = (0..digits.len()).step_by(2).map(byte);
    [0; 80].into_iter().chain(bytes).collect()
}

/// A number as a file has it, where every NaN is one.
fn filed(x: f32) -> [u8; 4] {
    match x.is_nan() {
        true => 0x7fc0_0000u32.to_le_bytes(),
        false => x.to_le_bytes(),
    }
}

/// The file of a mesh that is lawful.
fn plain_file(mesh: &Mesh) -> Vec<u8> {
    let mut file = vec![0; 80];
    file.extend((mesh.indices.len() as u32 / 3).to_le_bytes());
    for triangle in mesh.indices.chunks(3) {
        let corners = triangle.iter().map(|index| usize::from(*index));
        let normal = mesh.normals[usize::from(triangle[0])];
        let points = [normal]
            .into_iter()
            .chain(corners.map(|k| mesh.vertices[k]));
        file.extend(points.flatten().flat_map(filed));
        file.extend([0, 0]);
    }
    file
}

/// The mesh of a file that is lawful.
fn plain_mesh(file: &[u8]) -> Mesh {
    let mut mesh = Mesh::default();
    for triangle in file[84..].chunks(50) {
        let number = |k: usize| f32::from_le_bytes(triangle[4 * k..][..4].try_into().unwrap());
        let point = |k: usize| [0, 1, 2].map(|part| number(3 * k + part));
        mesh.vertices.extend([1, 2, 3].map(point));
        mesh.normals.extend([point(0); 3]);
        mesh.uvs.extend([[0.0; 2]; 3]);
        let first = mesh.indices.len() as u16;
        mesh.indices.extend([0, 1, 2].map(|k| first + k));
    }
    mesh
}

/// The bits of a mesh, where every NaN is one.
fn tidy(mesh: &Mesh) -> Bits {
    let (vertices, normals, uvs, indices) = bits(mesh);
    let tidy = |list: Vec<u32>| {
        let word = |x: u32| u32::from_le_bytes(filed(f32::from_bits(x)));
        list.into_iter().map(word).collect()
    };
    (tidy(vertices), tidy(normals), tidy(uvs), indices)
}

/// A mesh in which each number is another, of so many triangles with vertices of their own as far as
/// these go.
fn numbered(triangles: usize) -> Mesh {
    let vertices = (3 * triangles).min(65_536);
    let rows = |from: u32| (0..vertices).map(move |k| [0, 1, 2].map(|part| point(from, k, part)));
    Mesh {
        vertices: rows(0x3f80_0000).collect(),
        normals: rows(0x4080_0000).collect(),
        uvs: vec![[0.25, 0.75]; vertices],
        indices: (0..3 * triangles).map(|k| (k % 65_536) as u16).collect(),
    }
}

fn point(from: u32, vertex: usize, part: u32) -> f32 {
    f32::from_bits(from + 3 * vertex as u32 + part)
}

#[test]
fn a_wall_byte_for_byte() {
    let bytes = wall().to_stl().unwrap();
    assert_eq!(bytes.len(), 184);
    assert_eq!(bytes, file(WALL));
    let mesh = Mesh::from_stl(&bytes).unwrap();
    let corners = [
        [1.0, 2.0, 1.0],
        [1.0, 2.0, -1.0],
        [1.0, 0.0, -1.0],
        [1.0, 0.0, -1.0],
        [1.0, 0.0, 1.0],
        [1.0, 2.0, 1.0],
    ];
    let wanted = Mesh {
        vertices: corners.to_vec(),
        normals: vec![[1.0, 0.0, 0.0]; 6],
        uvs: vec![[0.0; 2]; 6],
        indices: vec![0, 1, 2, 3, 4, 5],
    };
    assert_eq!(bits(&mesh), bits(&wanted));
}

#[test]
fn no_triangles() {
    assert_eq!(Mesh::default().to_stl(), Ok(vec![0; 84]));
    assert_eq!(filled(5, 0).to_stl(), Ok(vec![0; 84]));
    assert_eq!(Mesh::from_stl(&[0; 84]), Ok(Mesh::default()));
}

#[test]
fn every_job_goes_over_and_comes_back() {
    let jobs: [&dyn Job; 4] = [&plane(), &column(), &cheap_column(), &heightmap()];
    for job in jobs {
        let mesh = job.build().unwrap();
        let bytes = mesh.to_stl().unwrap();
        assert_eq!(bytes, plain_file(&mesh));
        let back = Mesh::from_stl(&bytes).unwrap();
        assert_eq!(tidy(&back), tidy(&plain_mesh(&bytes)));
        // What is read is written as the same file.
        assert_eq!(back.to_stl(), Ok(bytes));
    }
}

/// The lists of what is read are exact, and a file that is too long is written all the same.
#[test]
fn as_many_triangles_as_are_read_and_more() {
    for triangles in [1, MOST - 1, MOST, MOST + 1, 100_000] {
        let mesh = numbered(triangles);
        let bytes = mesh.to_stl().unwrap();
        assert_eq!(bytes.len(), 84 + 50 * triangles);
        assert!(bytes == plain_file(&mesh), "{triangles} triangles");
        let back = Mesh::from_stl(&bytes);
        if triangles > MOST {
            assert_eq!(back, Err(Refusal::Limit));
            continue;
        }
        let back = back.unwrap();
        assert!(back.vertices == mesh.vertices && back.normals.len() == 3 * triangles);
        assert!(bits(&back) == bits(&plain_mesh(&bytes)));
    }
}

fn refused(mesh: &Mesh, why: Refusal) {
    assert_eq!(mesh.to_stl(), Err(why));
    let mut bytes = vec![7; 3];
    let error = mesh.write_stl(&mut bytes).unwrap_err();
    assert_eq!(error.kind(), ErrorKind::InvalidInput);
    assert_eq!(error.to_string(), why.to_string());
    assert_eq!(error.downcast::<Refusal>().unwrap(), why);
    assert_eq!(bytes, [7; 3]);
}

/// Each fault of a mesh with all that are told later.
#[test]
fn a_bad_mesh_is_refused_for_its_first_fault() {
    let mut mesh = filled(65_537, 0);
    mesh.indices = vec![65_535; 4];
    refused(&mesh, Refusal::Limit);
    for short in one_short(&mesh).into_iter().take(3) {
        refused(&short, Refusal::Shape);
    }
    let mut mesh = filled(1, 0);
    mesh.indices = vec![0, 1];
    refused(&mesh, Refusal::Index);
    for short in one_short(&mesh).into_iter().take(3) {
        refused(&short, Refusal::Shape);
    }
    mesh.indices = vec![0, 0];
    refused(&mesh, Refusal::Triangles);
    mesh.uvs.push([0.0; 2]);
    refused(&mesh, Refusal::Shape);
    let astray = Mesh {
        indices: vec![0; 3],
        ..Mesh::default()
    };
    refused(&astray, Refusal::Index);
}

#[test]
fn an_index_astray_at_every_place() {
    for place in 0..6 {
        for (index, is_vertex) in [(3, true), (4, false), (65_535, false)] {
            let mut mesh = wall();
            mesh.indices[place] = index;
            let file = is_vertex.then(|| plain_file(&mesh));
            assert_eq!(mesh.to_stl(), file.ok_or(Refusal::Index));
        }
    }
}

#[test]
fn bytes_that_are_no_file_are_refused() {
    let whole = numbered(3).to_stl().unwrap();
    for cut in (0..whole.len()).chain([whole.len() + 1]) {
        let mut bytes = whole.clone();
        bytes.resize(cut, 0);
        assert_eq!(Mesh::from_stl(&bytes), Err(Refusal::File), "{cut} bytes");
    }
    // Times 50 the last two wrap in 32 bits.
    for count in [
        0,
        2,
        4,
        0x0300_0000,
        0xffff_ffff,
        0x8000_0003,
        0x8000_0000u32,
    ] {
        let mut bytes = whole.clone();
        bytes[80..84].copy_from_slice(&count.to_le_bytes());
        assert_eq!(Mesh::from_stl(&bytes), Err(Refusal::File), "{count:x}");
        bytes.truncate(84);
        let answer = Mesh::from_stl(&bytes).err();
        assert_eq!(answer, (count > 0).then_some(Refusal::File), "{count:x}");
    }
    // A text is refused as well, and so is a file with too many triangles and a byte more.
    assert_eq!(Mesh::from_stl(&[b' '; 284]), Err(Refusal::File));
    let mut long = numbered(MOST + 1).to_stl().unwrap();
    long.push(0);
    assert_eq!(Mesh::from_stl(&long), Err(Refusal::File));
}

#[test]
fn what_else_stands_in_a_file_changes_nothing() {
    let mut bytes = file(WALL);
    bytes[..80].copy_from_slice(&[0xff; 80]);
    bytes[..6].copy_from_slice(b"solid ");
    for attribute in [132, 133, 182, 183] {
        bytes[attribute] = 0xff;
    }
    let mesh = Mesh::from_stl(&bytes).unwrap();
    assert_eq!(bits(&mesh), bits(&Mesh::from_stl(&file(WALL)).unwrap()));
    assert_eq!(mesh.to_stl(), Ok(file(WALL)));
}

/// Takes so many bytes at a time and so many in all, and says whether it was flushed.
struct Narrow {
    bytes: Vec<u8>,
    room: usize,
    is_flushed: bool,
    is_broken: bool,
}

impl Write for Narrow {
    fn write(&mut self, bytes: &[u8]) -> io::Result<usize> {
        let taken = bytes.len().min(7).min(self.room - self.bytes.len());
        self.bytes.extend(&bytes[..taken]);
        self.is_flushed = false;
        Ok(taken)
    }

    fn flush(&mut self) -> io::Result<()> {
        self.is_flushed = true;
        match self.is_broken {
            true => Err(io::Error::other("the disk is full")),
            false => Ok(()),
        }
    }
}

#[test]
fn a_writer_gets_the_whole_file_and_its_errors_come_back() {
    let narrow = |room, is_broken| Narrow {
        bytes: Vec::new(),
        room,
        is_flushed: false,
        is_broken,
    };
    let mut all = narrow(500, false);
    wall().write_stl(&mut all).unwrap();
    assert_eq!((all.bytes, all.is_flushed), (file(WALL), true));
    let mut short = narrow(183, false);
    let why = wall().write_stl(&mut short).unwrap_err();
    assert_eq!(why.kind(), ErrorKind::WriteZero);
    let why = wall().write_stl(narrow(184, true)).unwrap_err();
    assert_eq!(why.to_string(), "the disk is full");
    // A refused mesh writes nothing, and its writer is not flushed.
    let mut none = narrow(500, true);
    let error = filled(1, 1).write_stl(&mut none).unwrap_err();
    assert_eq!(error.kind(), ErrorKind::InvalidInput);
    assert_eq!((none.bytes.len(), none.is_flushed), (0, false));
}

#[test]
fn the_words_and_numbers_of_files() {
    let told = |why: Refusal| (why.number(), why.to_string());
    let words = "the indices are no whole triangles: give three for each, and no more triangles than 32 bits count";
    assert_eq!(told(Refusal::Triangles), (10, words.to_string()));
    let words = "the bytes are no binary STL file: give a whole one, 84 bytes and 50 for each triangle that it counts";
    assert_eq!(told(Refusal::File), (11, words.to_string()));
    let words = "the byte buffer is too short: lengthen it to at least 184 bytes";
    let why = Refusal::Bytes { need: 184 };
    assert_eq!(told(why), (55, words.to_string()));
    let words = "the byte buffer is too short: lengthen it to all bytes of the whole file";
    let none = Refusal::from_number(55).unwrap();
    assert_eq!(told(none), (55, words.to_string()));
}

/// Zeros, subnormals, infinities and NaNs of every sort, and any pattern besides.
fn pattern(random: &mut Random) -> f32 {
    let ends = [
        0x0000_0000,
        0x8000_0000,
        0x0000_0001,
        0x807f_ffff,
        0x7f80_0000,
        0xff80_0000,
        0x7f80_0001,
        0xffc1_2345,
    ];
    let any = random.below(1 << 32) as u32;
    f32::from_bits(*ends.get(random.below(24)).unwrap_or(&any))
}

fn drawn(random: &mut Random) -> Mesh {
    let (vertices, triangles) = (1 + random.below(20), random.below(20));
    let mut row = |_| [0; 3].map(|_| pattern(random));
    let points: Vec<[f32; 3]> = (0..2 * vertices).map(&mut row).collect();
    Mesh {
        vertices: points[..vertices].to_vec(),
        normals: points[vertices..].to_vec(),
        uvs: vec![[f32::NAN, -0.0]; vertices],
        indices: (0..3 * triangles)
            .map(|_| random.below(vertices) as u16)
            .collect(),
    }
}

/// Corner by corner, without the plain way: what was written comes back.
fn hold_corners(mesh: &Mesh, back: &Mesh) {
    let same = |a: [f32; 3], b: [f32; 3]| a.map(filed) == b.map(filed);
    for (corner, index) in mesh.indices.iter().enumerate() {
        let first = usize::from(mesh.indices[corner - corner % 3]);
        assert!(same(
            back.vertices[corner],
            mesh.vertices[usize::from(*index)]
        ));
        assert!(same(back.normals[corner], mesh.normals[first]));
        assert_eq!(back.uvs[corner].map(f32::to_bits), [0, 0]);
        assert_eq!(usize::from(back.indices[corner]), corner);
    }
    assert_eq!(back.indices.len(), mesh.indices.len());
}

#[test]
fn drawn_meshes() {
    let random = &mut Random(1);
    for _ in 0..4_000 {
        let mesh = drawn(random);
        let mut bytes = mesh.to_stl().unwrap();
        assert_eq!(bytes, plain_file(&mesh));
        let back = Mesh::from_stl(&bytes).unwrap();
        hold_corners(&mesh, &back);
        assert_eq!(back.to_stl().as_ref(), Ok(&bytes));
        // A file of any bytes but for its count.
        for byte in &mut bytes[84..] {
            *byte = random.below(256) as u8;
        }
        let back = Mesh::from_stl(&bytes).unwrap();
        assert_eq!(tidy(&back), tidy(&plain_mesh(&bytes)));
    }
}
