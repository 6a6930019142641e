//! Programs over the header, compiled, linked with the archive and run. Cargo runs a test in its package's
//! folder, where they are read. The README shows lines of one.

#[path = "common/compiler.rs"]
mod compiler;
use compiler::{Language, C, CPP};

/// Two caps, six walls of the higher cell and five of the lower; what the uvs of all need; the ends of the wall
/// between them.
const MAP: &str = "\
answer 0: 56 vertices, 90 indices
answer 53: the uvs need 112 numbers
1 1 2
1 2 2
2 2 0
2 1 0
as in the whole map
";

/// Worked out by hand.
const CALLS: &str = "\
root: 2.5
fused: 22
altered: 4.5 18
wrapped: 0.5 0
column: 0, 42 and 66, need 0
faces: 0, 42 and 66, need 0
they: 10
window: 0, 42 and 66, need 0
it: 6 and 12 from 36 and 54
window: 6, 0 and 0, need 0
it: 0 and 0 from 0 and 0
cheap column: 0, 12 and 48, need 0
its top: 2 3 0
its normal: 1.5 0 0.25
no room: 52, 0 and 0, need 18
no face: 6, 0 and 0, need 0
plane: 0, 6 and 12, need 0
its corner: 17 6 27
map: 0, 0 and 0, need 0
too far: 2, 0 and 0, need 0
load: 0, 0 and 0, need 0
its cells: 4 5 6 7 8 9 10 11
past them: -1
its neighbours: 0 1 4294967295
too short: 1, 0 and 0, need 0
why: 0, 16 and 30, need 0
it: as high, 2, 0
why: 0, 16 and 30, need 0
it: present, 0, 2
why: 0, 16 and 30, need 0
it: nothing beyond, 0, 0
why: 6, 0 and 0, need 0
it: no reason, 0, 0
why: 6, 0 and 0, need 0
it: no reason, 0, 0
which: 0, 16 and 30, need 0
it: cap 0 of 1
which: 0, 16 and 30, need 0
it: side 3 of 1
which: 6, 0 and 0, need 0
it: no kind 0 of 0
why: 0, 12 and 24, need 0
it: sides off, 0, 0
scale: 0, 3 and 3, need 0
offset: 0, 2 and 2, need 0
vertices: 1 10 100 7 10 100 0 18 36
texture: 0, 3 and 3, need 0
uv centroid: 0, 3 and 3, need 0
it: 2 1
no room: 54, 0 and 0, need 6
merge: 0, 6 and 6, need 0
indices: 5 4 3
centroid: 0, 6 and 6, need 0
it: 3 8 40
no bytes: 55, 0 and 0, need 134
it: 0
as before: ee
write: 0, 3 and 3, need 0
it: 134
its head and normal: 0001000000000080410000884100009041
its end: 0000c0400000ee
no file: 11, 0 and 0, need 0
no room: 53, 0 and 0, need 6
read: 0, 3 and 3, need 0
vertices: 7 8 9 1 2 3 4 5 6
normals: 16 17 18 16 17 18 16 17 18
uvs: 0 0 0 0 0 0
indices: 0 1 2
no triangles: 0, 0 and 0, need 0
it: 84
read: 0, 0 and 0, need 0
";

/// Sixteen triangles of 50 bytes after 84; the first has the corners 0, 2 and 1 of the top.
const STL: &str = "\
answer 55: the file needs 884 bytes
answer 0: 884 bytes
answer 0: 48 vertices, 48 indices
2 3 0
-1 3 2
1 3 2
";

const README: &str = include_str!("../../../README.md");
const EXAMPLE: &str = include_str!("../examples/map.c");

/// The indented lines of a text, from the first that starts so.
fn block(text: &str, first: &str) -> String {
    let lines = text.lines().skip_while(|line| !line.starts_with(first));
    let block = lines.take_while(|line| line.starts_with("    "));
    block.flat_map(|line| [line, "\n"]).collect()
}

fn hold_printed(language: &Language, path: &str, wanted: &str) {
    let program = std::fs::read_to_string(path).unwrap_or_else(|why| panic!("{path}: {why}"));
    if let Some(printed) = language.run(path, &program) {
        assert_eq!(printed, wanted, "{path}");
    }
}

#[test]
fn the_example_builds_a_map_and_one_face_of_it() {
    hold_printed(&C, "examples/map.c", MAP);
}

#[test]
fn the_example_writes_a_file_and_reads_it() {
    hold_printed(&C, "examples/stl.c", STL);
}

#[test]
fn c_hands_every_struct_over_as_the_archive_takes_it() {
    hold_printed(&C, "tests/calls.c", CALLS);
}

#[test]
fn cpp_hands_every_struct_over_as_the_archive_takes_it() {
    hold_printed(&CPP, "tests/calls.c", CALLS);
}

#[test]
fn the_readme_shows_the_example_and_what_it_prints() {
    let shown = block(README, "    HosirekarChoice ");
    assert!(shown.contains(" = hosirekar_heightmap_build("), "{shown}");
    assert_eq!(shown, block(EXAMPLE, "    HosirekarChoice "));
    assert!(shown.lines().count() <= 10);
    let (first, _) = MAP.split_once('\n').expect("a line");
    assert!(README.contains(&format!("prints `{first}`")), "{first}");
}
