//! Files that are read, and bytes that are none.

use crate::common::stl::{known_bytes, length, Reading};
use crate::common::stl_draws::EDGES;
use crate::common::{
    done, first_short, longer, needs, no_room, refused, room_number, shortened, Lengths, Mesh,
};
use crate::{mesh_of, some_file, wall_file, MOST};
use hosirekar_sys::hosirekar_stl_read;

#[test]
fn a_wall_number_for_number() {
    let vertices = [
        [1., 2., 1., 1., 2., -1., 1., 0., -1.],
        [1., 0., -1., 1., 0., 1., 1., 2., 1.],
    ];
    let wanted = Mesh {
        vertices: vertices.concat(),
        normals: [1., 0., 0.].repeat(6),
        uvs: vec![0.; 12],
        indices: vec![0, 1, 2, 3, 4, 5],
    };
    mesh_of(&wall_file()).hold(&wanted, "the wall");
    // Past the counts nothing is written.
    let fresh = Mesh::known(longer(wanted.lengths()));
    let mut made = fresh.clone();
    let to = made.all();
    let given = hosirekar_stl_read(&wall_file(), to.vertices, to.normals, to.uvs, to.indices);
    assert_eq!(given, done(6, 6));
    made.hold(&fresh.with_front(&wanted), "longer lists");
}

#[test]
fn no_triangles() {
    for lent in [[0; 4], [3; 4]] {
        for bytes in [vec![0; 84], some_file(0)] {
            let reading = Reading { bytes, lent };
            assert_eq!(reading.hold(0, "none"), done(0, 0));
        }
    }
}

#[test]
fn as_many_triangles_as_are_read_and_more() {
    for triangles in [MOST - 1, MOST] {
        let reading = Reading::exact(some_file(triangles), triangles);
        let wanted = done(3 * triangles, 3 * triangles);
        assert_eq!(reading.hold(0, "many"), wanted);
    }
    for triangles in [MOST + 1, 65_536, 65_537, 100_000] {
        let reading = Reading::exact(some_file(triangles), triangles);
        assert_eq!(reading.hold(4, "too many"), refused(4));
    }
}

/// Of all prefixes only the whole is a file. One more byte behind each shows that the length alone decides.
#[test]
fn every_prefix_of_a_file() {
    let whole = [some_file(3), vec![0xaa; 60]].concat();
    let number = |bytes: usize| if bytes == length(3) { 0 } else { 11 };
    for cut in 0..=whole.len() {
        let prefix = &whole[..cut];
        Reading::exact(prefix.to_vec(), 3).hold(number(cut), "a prefix");
        let more = [prefix, &[0x55]].concat();
        Reading::exact(more, 3).hold(number(cut + 1), "a byte more");
    }
}

/// So many bytes that count so many triangles.
fn counting(length: usize, triangles: u32) -> Vec<u8> {
    let mut bytes = known_bytes(length);
    if let Some(count) = bytes.get_mut(80..84) {
        count.copy_from_slice(&triangles.to_le_bytes());
    }
    bytes
}

#[test]
fn lengths_that_no_count_has() {
    let mut cases = vec![(83, 0), (85, 0), (133, 1), (135, 1), (84, 1)];
    cases.extend([(134, 2), (134, 0), (184, 1), (184, 3)]);
    cases.extend([0, 1, 34, 80, 81, 82].map(|length| (length, 0)));
    let lengths = [84, 85, 134, 184, 65_620, 3_276_884];
    cases.extend(lengths.map(|length| (length, 0xffff_ffff)));
    // In 32 bits these wrap to the right length, and the others in 16.
    cases.extend((0..9).map(|k| (84 + 50 * k as usize, 0x8000_0000 + k)));
    cases.extend((0..9).map(|k| (84 + 50 * k as usize, 0x0001_8000 + k)));
    for (length, count) in cases {
        let reading = Reading::exact(counting(length, count), 9);
        assert_eq!(reading.hold(11, "no file"), refused(11), "{count:08x}");
    }
}

#[test]
fn every_damaged_count() {
    for triangles in [0, 2, 256, 300] {
        let right = triangles as u32;
        let flipped = (0..32).map(|bit| right ^ 1 << bit);
        let near = [right.wrapping_sub(1), right + 1, right.swap_bytes(), !right];
        for count in flipped.chain(near).filter(|count| *count != right) {
            let reading = Reading::exact(counting(length(triangles), count), triangles);
            assert_eq!(reading.hold(11, "damaged"), refused(11), "{count:08x}");
        }
    }
}

/// 11 comes before 4, and 4 before room.
#[test]
fn the_first_fault_gives_the_number() {
    let many = some_file(MOST + 1);
    let need = needs(3 * MOST + 3, 3 * MOST + 3);
    for lent in [[0; 4], need, longer(need)] {
        let hold = |bytes: Vec<u8>, number| {
            let reading = Reading { bytes, lent };
            assert_eq!(reading.hold(number, "many"), refused(number));
        };
        hold(many.clone(), 4);
        hold([&many[..], &[0]].concat(), 11);
        hold(many[..many.len() - 1].to_vec(), 11);
    }
    let most = Reading {
        bytes: some_file(MOST),
        lent: [0; 4],
    };
    assert_eq!(most.hold(51, "no room"), no_room(0, 9 * MOST));
}

/// Each list enough, one short or empty: the first that is short gives the number, with its whole need.
#[test]
fn every_set_of_short_lists() {
    let need = [18, 18, 12, 6];
    for set in 0..81 {
        let lent: Lengths = std::array::from_fn(|list| {
            let lengths = [need[list], need[list] - 1, 0];
            lengths[set / 3usize.pow(list as u32) % 3]
        });
        let bytes = some_file(2);
        let wanted = match first_short(lent, need) {
            Some(list) => no_room(list, need[list]),
            None => done(6, 6),
        };
        let given = Reading { bytes, lent }.hold(wanted.number, "short");
        assert_eq!(given, wanted, "lent {lent:?}");
    }
}

#[test]
fn each_list_one_short_exact_and_longer() {
    for triangles in [1, 2, 3, 10, 257, MOST] {
        let need = [9, 9, 6, 3].map(|each| each * triangles);
        let hold = |lent, number| {
            let bytes = some_file(triangles);
            Reading { bytes, lent }.hold(number, "lists")
        };
        hold(need, 0);
        hold(longer(need), 0);
        for list in 0..4 {
            let wanted = no_room(list, need[list]);
            for others in [need, longer(need)] {
                let lent = shortened(others, need, list);
                assert_eq!(hold(lent, room_number(list)), wanted);
            }
        }
    }
}

/// What stands there changes nothing.
#[test]
fn header_and_attributes_are_not_looked_at() {
    let wanted = mesh_of(&wall_file());
    for place in (0..80).chain([132, 133, 182, 183]) {
        for value in [1, 0x80, 0xff] {
            let mut bytes = wall_file();
            bytes[place] = value;
            mesh_of(&bytes).hold(&wanted, format_args!("byte {place} is {value}"));
        }
    }
    // As a text begins.
    let mut bytes = wall_file();
    bytes[..6].copy_from_slice(b"solid ");
    mesh_of(&bytes).hold(&wanted, "solid");
}

/// Every pattern at every place of the second triangle. That of a normal is read three times.
#[test]
fn patterns_come_back_bit_for_bit_and_every_nan_as_some() {
    let plain = mesh_of(&some_file(2));
    for pattern in EDGES {
        for place in 0..12 {
            let mut bytes = some_file(2);
            bytes[134 + 4 * place..][..4].copy_from_slice(&pattern.to_le_bytes());
            let mut wanted = plain.clone();
            if place < 3 {
                let own = wanted.normals[9 + place..].iter_mut().step_by(3);
                own.for_each(|x| *x = f32::from_bits(pattern));
            } else {
                wanted.vertices[9 + place - 3] = f32::from_bits(pattern);
            }
            let what = format!("{pattern:08x} at {place}");
            mesh_of(&bytes).hold(&wanted, what);
        }
    }
}
