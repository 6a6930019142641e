//! Files that are written and read back, and files that are read and written again.

use crate::common::stl::{Reading, Writing};
use crate::common::stl_draws::{read_and_written, written_and_read, Tally};
use crate::{bytes_of, many, mesh, mesh_of, some_file, wall, wall_file, MOST};

/// The last mesh has one triangle too many: it is written, and its file is not read.
#[test]
fn what_is_written_is_read_back() {
    let shared = mesh(5, &[4, 0, 2, 1, 1, 1, 3, 4, 0, 2, 3, 4]);
    for mesh in [wall(), shared, many(300), many(MOST), many(MOST + 1)] {
        let triangles = mesh.indices.len() / 3;
        let differs = written_and_read(&Writing::exact(mesh));
        assert_eq!(differs, None, "{triangles} triangles");
    }
}

#[test]
fn what_is_read_is_written_again() {
    for triangles in [0, 1, 7, 300, MOST] {
        let reading = Reading::exact(some_file(triangles), triangles);
        assert_eq!(read_and_written(&reading), None, "{triangles} triangles");
    }
    let mut garbage = wall_file();
    for place in (0..80).chain([132, 133, 182, 183]) {
        garbage[place] = 0xff;
    }
    assert_eq!(bytes_of(&mesh_of(&garbage)), wall_file());
}

/// The example `drawn_stl` runs more of them.
#[test]
fn drawn_meshes_and_files() {
    let tally = Tally::run(6_000, 1);
    assert_eq!((&tally.first, tally.differ), (&None, 0), "{tally}");
    assert!(tally.done.iter().all(|done| *done > 3_000), "{tally}");
    let wanted = [&[1, 7, 10, 55][..], &[11, 51, 52, 53, 54]];
    for (met, numbers) in tally.refused.iter().zip(wanted) {
        let is_met = |number| met.contains_key(number);
        assert!(numbers.iter().all(is_met), "{tally}");
    }
}
