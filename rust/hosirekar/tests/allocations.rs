//! How often jobs that are added to a mesh ask for memory, and files that are written and read.

mod common;
use common::*;
use hosirekar::*;
use std::alloc::{GlobalAlloc, Layout, System};
use std::cell::Cell;

thread_local! {
    static ASKED: Cell<usize> = const { Cell::new(0) };
}

/// The system's allocator, which counts for each thread how often it is asked.
struct Counting;

fn count() {
    ASKED.set(ASKED.get() + 1);
}

// SAFETY: every call goes to the system's allocator as it came.
unsafe impl GlobalAlloc for Counting {
    unsafe fn alloc(&self, layout: Layout) -> *mut u8 {
        count();
        unsafe { System.alloc(layout) }
    }

    unsafe fn dealloc(&self, old: *mut u8, layout: Layout) {
        unsafe { System.dealloc(old, layout) }
    }

    unsafe fn alloc_zeroed(&self, layout: Layout) -> *mut u8 {
        count();
        unsafe { System.alloc_zeroed(layout) }
    }

    unsafe fn realloc(&self, old: *mut u8, layout: Layout, size: usize) -> *mut u8 {
        count();
        unsafe { System.realloc(old, layout, size) }
    }
}

#[global_allocator]
static COUNTING: Counting = Counting;

/// How often memory is asked for meanwhile.
fn asked<T>(run: impl FnOnce() -> T) -> usize {
    let before = ASKED.get();
    run();
    ASKED.get() - before
}

const COLUMNS: u16 = 500;

fn columns() -> impl Iterator<Item = Column> {
    (0..COLUMNS).map(|k| Column {
        position: [f32::from(k), 0.0],
        top: Some(options(1)),
        ..Column::new(CORNERS, 3.0)
    })
}

fn add_all(mesh: &mut Mesh) {
    for column in columns() {
        mesh.add(&column).unwrap();
    }
}

#[test]
fn many_columns_ask_for_memory_a_few_times() {
    let (mut added, mut merged) = (Mesh::default(), Mesh::default());
    let by_adding = asked(|| add_all(&mut added));
    let by_merging = asked(|| {
        for column in columns() {
            merged.merge_with(&column.build().unwrap()).unwrap();
        }
    });
    assert_eq!(bits(&added), bits(&merged));
    // Four lists that double, against four lists a column beside them.
    assert!(by_adding <= 4 * 16, "{by_adding}");
    assert!(by_merging >= 4 * usize::from(COLUMNS), "{by_merging}");
    // A mesh that had them once has the room.
    added.vertices.clear();
    added.normals.clear();
    added.uvs.clear();
    added.indices.clear();
    assert_eq!(asked(|| add_all(&mut added)), 0);
    assert_eq!(bits(&added), bits(&merged));
}

#[test]
fn a_map_that_is_ready_asks_for_no_memory() {
    let map = heightmap();
    // Cells, neighbours and custom options; then the four lists of the mesh.
    assert_eq!(asked(|| map.plan().unwrap()), 3);
    assert_eq!(asked(|| map.build().unwrap()), 3 + 4);
    let (ready, mut mesh) = (map.ready(), map.build().unwrap());
    assert_eq!(asked(|| ready.plan().unwrap()), 0);
    assert_eq!(asked(|| ready.why(2, 5).unwrap()), 0);
    assert_eq!(asked(|| ready.which(13).unwrap()), 0);
    assert_eq!(asked(|| map.why(2, 5).unwrap()), 3);
    assert_eq!(asked(|| ready.build_into(&mut mesh.buffers()).unwrap()), 0);
    assert_eq!(
        asked(|| ready.build_face(3, &mut mesh.buffers()).unwrap()),
        0
    );
    assert_eq!(asked(|| map.add_to(&mut mesh).unwrap()), 3 + 4);
}

#[test]
fn a_refusal_asks_for_no_memory() {
    let mut map = heightmap();
    map.offset = Some([0.0, 0.0, f32::NAN]);
    let ready = map.ready();
    assert_eq!(asked(|| ready.plan().unwrap_err()), 0);
    assert_eq!(asked(|| ready.why(0, 0).unwrap_err()), 0);
    assert_eq!(asked(|| ready.which(0).unwrap_err()), 0);
    let mut mesh = plane().build().unwrap();
    assert_eq!(asked(|| mesh.add(&ready).unwrap_err()), 0);
    assert_eq!(asked(|| mesh.scale([f32::NAN; 3]).unwrap_err()), 0);
    let mut none = Mesh::default();
    let short = || plane().build_into(&mut none.buffers()).unwrap_err();
    assert_eq!(asked(short), 0);
}

#[test]
fn a_file_asks_for_its_bytes_and_a_mesh_for_its_lists() {
    let mesh = column().build().unwrap();
    let file = mesh.to_stl().unwrap();
    assert_eq!(asked(|| mesh.to_stl().unwrap()), 1);
    assert_eq!(asked(|| Mesh::from_stl(&file).unwrap()), 4);
    assert_eq!(asked(|| Mesh::from_stl(&file[1..]).unwrap_err()), 0);
    // 4,294,967,295 triangles are not there.
    let mut boast = file.clone();
    boast[80..84].fill(0xff);
    assert_eq!(asked(|| Mesh::from_stl(&boast).unwrap_err()), 0);
    let mut astray = mesh;
    astray.indices[0] = 65_535;
    assert_eq!(asked(|| astray.to_stl().unwrap_err()), 0);
    astray.indices.truncate(4);
    astray.indices[0] = 0;
    assert_eq!(asked(|| astray.to_stl().unwrap_err()), 0);
}
