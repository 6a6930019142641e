//! Files that are written, and meshes that are not.

use crate::common::stl::{known_bytes, no_bytes, Writing};
use crate::common::stl_draws::EDGES;
use crate::common::{counts, done, needs, refused, shortened, Lengths, Mesh};
use crate::{bytes_of, many, mesh, not_written, wall, wall_file, written, MOST};
use hosirekar_sys::*;

#[test]
fn a_wall_byte_for_byte() {
    let file = wall_file();
    assert_eq!(file.len(), 184);
    assert_eq!(bytes_of(&wall()), file);
    // Past the file nothing is written.
    let mut bytes = known_bytes(300);
    let given = Writing::exact(wall()).call(&mut bytes);
    assert_eq!(given, written(counts(4, 6), 184));
    assert_eq!(bytes, [&file, &known_bytes(300)[184..]].concat());
}

#[test]
fn a_column_of_one_side_is_that_wall() {
    let mut job = CColumn {
        height: 2.0,
        ..CColumn::default()
    };
    job.sides[0] = CChoice {
        given: true,
        option: 255,
    };
    let mut pairs = [0.0; 24];
    pairs[..4].copy_from_slice(&[1.0, 1.0, 1.0, -1.0]);
    let mut made = Mesh::known(needs(4, 6));
    let to = made.all();
    let given = hosirekar_column_build(
        job,
        &pairs,
        &[0.0; 12],
        &[],
        &[],
        to.vertices,
        to.normals,
        to.uvs,
        to.indices,
    );
    assert_eq!(given, done(4, 6));
    made.hold(&wall(), "the wall");
    assert_eq!(bytes_of(&made), wall_file());
}

#[test]
fn bytes_that_are_short_exact_and_longer() {
    let wall = Writing::exact(wall());
    for room in (0..190).chain([284, 4_096]) {
        let wanted = match room {
            0..184 => not_written(no_bytes(184)),
            _ => written(counts(4, 6), 184),
        };
        let writing = Writing {
            room,
            ..wall.clone()
        };
        let given = writing.hold(wanted.answer.number, "a wall");
        assert_eq!(given, wanted, "{room} bytes");
    }
}

#[test]
fn no_triangles() {
    for vertices in [0, 1, 5, 65_536] {
        let empty = mesh(vertices, &[]);
        assert_eq!(bytes_of(&empty), [0; 84]);
        let tight = Writing {
            room: 83,
            ..Writing::exact(empty)
        };
        assert_eq!(tight.hold(55, "none"), not_written(no_bytes(84)));
    }
}

/// Faults that stand beside each other: a list that is short, too many vertices, an index astray, an index
/// past the last triangle, and a byte too few.
#[derive(Clone, Copy, Debug)]
struct Faults {
    short: Option<usize>,
    limit: bool,
    astray: bool,
    triangles: bool,
    room: bool,
}

impl Faults {
    fn all() -> Vec<Faults> {
        let shorts = [None, Some(0), Some(1), Some(2), Some(3)];
        let with = |short| {
            (0..16).map(move |set| Faults {
                short,
                limit: set & 1 > 0,
                astray: set & 2 > 0,
                triangles: set & 4 > 0,
                room: set & 8 > 0,
            })
        };
        // No index of 16 bits is astray among more than 65,536 vertices.
        let can_be = |faults: &Faults| !(faults.limit && faults.astray);
        shorts.into_iter().flat_map(with).filter(can_be).collect()
    }

    /// The order is 1, 4, 7, 10, 55.
    fn number(&self) -> u32 {
        let Faults {
            short,
            limit,
            astray,
            triangles,
            room,
        } = *self;
        match () {
            _ if short.is_some() => 1,
            _ if limit => 4,
            _ if astray => 7,
            _ if triangles => 10,
            _ if room => 55,
            _ => 0,
        }
    }

    fn writing(&self) -> Writing {
        let mut indices = vec![2, 0, 1, 2, 2, 3];
        indices.extend(self.triangles.then_some(0));
        if self.astray {
            indices[5] = 4;
        }
        let vertices = if self.limit { 65_537 } else { 4 };
        let mut writing = Writing::exact(mesh(vertices, &indices));
        if let Some(list) = self.short {
            writing.given = shortened(writing.given, writing.given, list);
        }
        writing.room -= usize::from(self.room);
        writing
    }
}

#[test]
fn the_first_fault_gives_the_number() {
    let all = Faults::all();
    assert_eq!(all.len(), 60);
    for faults in all {
        let what = format!("{faults:?}");
        let given = faults.writing().hold(faults.number(), &what);
        let wanted = match faults.number() {
            0 => written(counts(4, 6), 184),
            55 => not_written(no_bytes(184)),
            number => not_written(refused(number)),
        };
        assert_eq!(given, wanted, "{what}");
    }
}

/// Holds a wall whose list of that number is of every length, while the others are of these.
fn hold_lengths(writing: &Writing, list: usize, given: Lengths) {
    let need = Writing::exact(wall()).given[list];
    for length in 0..need + 4 {
        let mut writing = Writing {
            given,
            ..writing.clone()
        };
        writing.given[list] = length;
        let number = u32::from(length < need);
        writing.hold(number, &format!("list {list}"));
    }
}

/// A list is shorter than its count asks, or it is not. What lies past the counts is not looked at.
#[test]
fn lists_that_are_short_exact_and_longer() {
    let mut writing = Writing::exact(wall());
    let exact = writing.given;
    writing.mesh.vertices.extend([f32::NAN; 3]);
    writing.mesh.normals.extend([f32::NAN; 3]);
    writing.mesh.uvs.extend([f32::NAN; 3]);
    writing.mesh.indices.extend([65_535; 3]);
    for list in 0..4 {
        hold_lengths(&writing, list, exact);
        hold_lengths(&writing, list, writing.mesh.lengths());
    }
}

/// No uv is written, and they are asked for all the same.
#[test]
fn uvs_alone_that_are_short() {
    for uvs in [0, 7] {
        let mut writing = Writing::exact(wall());
        writing.given[2] = uvs;
        assert_eq!(writing.hold(1, "uvs"), not_written(refused(1)));
    }
}

#[test]
fn indices_that_are_no_triangles() {
    let hold = |vertices: usize, indices: &[u16], number| {
        let mut writing = Writing::exact(mesh(vertices, indices));
        writing.room += 100;
        let given = writing.hold(number, "indices");
        assert_eq!(given.answer.number, number, "{indices:?}");
    };
    hold(1, &[0, 1], 7);
    hold(2, &[0, 1], 10);
    hold(1, &[0], 10);
    hold(0, &[0], 7);
    hold(0, &[0, 0, 0], 7);
    for count in 0..40 {
        hold(2, &vec![1; count], if count % 3 == 0 { 0 } else { 10 });
    }
}

/// The greatest that there is, the next, and the greatest of all, at each place.
#[test]
fn an_index_astray_at_every_place() {
    for place in 0..9 {
        for (value, number) in [(3, 0), (4, 7), (5, 7), (65_535, 7)] {
            let mut indices = [2, 1, 0, 0, 3, 2, 3, 3, 3];
            indices[place] = value;
            let mut writing = Writing::exact(mesh(4, &indices));
            writing.hold(number, &format!("{value} at {place}"));
            // With fewer triangles the rest is not looked at.
            writing.counts.indices = place / 3 * 3;
            writing.hold(0, &format!("{value} behind, at {place}"));
        }
    }
}

/// Counts of which two or three times as many wrap to few.
#[test]
fn counts_that_wrap() {
    let (third, half) = (usize::MAX / 3, usize::MAX / 2);
    for great in [third, third + 1, half, half + 1, half + 2, usize::MAX] {
        for counts in [counts(great, 6), counts(4, great), counts(great, great)] {
            let writing = Writing {
                counts,
                ..Writing::exact(wall())
            };
            assert_eq!(writing.hold(1, "great"), not_written(refused(1)));
        }
    }
}

#[test]
fn vertices_up_to_65_536_and_one_more() {
    let indices = [65_535, 0, 32_768, 65_534, 65_535, 1];
    for (vertices, number) in [(65_535, 7), (65_536, 0), (65_537, 4), (70_000, 4)] {
        let writing = Writing::exact(mesh(vertices, &indices));
        let given = writing.hold(number, "great");
        assert_eq!(given.answer.number, number, "{vertices} vertices");
    }
}

#[test]
fn more_triangles_than_are_read() {
    for triangles in [MOST, MOST + 1, 65_536, 100_000] {
        let mesh = many(triangles);
        let wanted = written(mesh.counts(), 84 + 50 * triangles);
        assert_eq!(Writing::exact(mesh).hold(0, "many"), wanted);
    }
}

extern "C" {
    #[rustfmt::skip]
    fn mmap(at: *mut u8, length: usize, access: i32, kind: i32, file: i32, from: i64)
        -> *const u16;
}

/// So many zeros, which take no memory: the system has one page of them for all that is only read.
fn zeros(length: usize) -> &'static [u16] {
    const READ: i32 = 1;
    // Private, of no file, and without room set aside.
    const KIND: i32 = 0x2 | 0x20 | 0x4000;
    // SAFETY: the pages are new, are never written and stay until the process ends.
    unsafe {
        let at = mmap(std::ptr::null_mut(), 2 * length, READ, KIND, -1, 0);
        assert_ne!(at as isize, -1, "no room for {length} zeros");
        std::slice::from_raw_parts(at, length)
    }
}

#[test]
#[ignore = "reads 26 GB of zeros three times"]
fn triangles_past_32_bits() {
    let zeros = zeros(3 << 32);
    let mut bytes = known_bytes(184);
    let mut write = |indices| {
        let (counts, three) = (counts(1, indices), [0.5; 3]);
        let given = hosirekar_stl_write(counts, &three, &three, &three, zeros, &mut bytes);
        assert_eq!(bytes, known_bytes(184));
        given
    };
    assert_eq!(write(3 << 32), not_written(refused(10)));
    assert_eq!(write((3 << 32) - 1), not_written(refused(10)));
    let most = not_written(no_bytes(214_748_364_834));
    assert_eq!(write((3 << 32) - 3), most);
}

/// A file has the corners, and the normal of each first one.
#[test]
fn other_numbers_are_not_written() {
    let mesh = mesh(6, &[2, 1, 0, 0, 3, 2]);
    let bytes = bytes_of(&mesh);
    let is_seen = |change: &dyn Fn(&mut Mesh)| {
        let mut other = mesh.clone();
        change(&mut other);
        bytes_of(&other) != bytes
    };
    for place in 0..18 {
        let is_corner = is_seen(&|mesh| mesh.vertices[place] = 8.0);
        assert_eq!(is_corner, place < 12, "vertices[{place}]");
        let is_first = is_seen(&|mesh| mesh.normals[place] = 8.0);
        assert_eq!(is_first, [0, 2].contains(&(place / 3)), "normals[{place}]");
    }
    assert!(!is_seen(&|mesh| mesh.uvs.fill(8.0)));
}

/// Every pattern at every place of a triangle, between neighbours that stay.
#[test]
fn patterns_go_over_bit_for_bit_and_every_nan_as_one() {
    let mesh = mesh(3, &[0, 1, 2]);
    for pattern in EDGES {
        for place in 0..12 {
            let mut other = mesh.clone();
            let number = match place {
                0..3 => &mut other.normals[place],
                _ => &mut other.vertices[place - 3],
            };
            *number = f32::from_bits(pattern);
            let is_nan = pattern & 0x7fff_ffff > 0x7f80_0000;
            let filed = if is_nan { 0x7fc0_0000 } else { pattern };
            let (mut wanted, at) = (bytes_of(&mesh), 84 + 4 * place);
            wanted[at..at + 4].copy_from_slice(&filed.to_le_bytes());
            assert_eq!(bytes_of(&other), wanted, "{pattern:08x} at {place}");
        }
    }
}
