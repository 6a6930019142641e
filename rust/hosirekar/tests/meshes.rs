//! Meshes that are made: merged, scaled, moved, and their middles.

mod common;
use common::*;
use hosirekar::*;

/// Three vertices, whose every number is another.
fn triangle() -> Mesh {
    let row = |k: u8| [k, k + 1, k + 2].map(f32::from);
    Mesh {
        vertices: vec![row(0), row(3), row(6)],
        normals: vec![row(10), row(13), row(16)],
        uvs: vec![[20.0, 21.0], [22.0, 23.0], [24.0, 25.0]],
        indices: vec![2, 0, 1],
    }
}

#[test]
fn a_merge_appends_and_raises_indices() {
    let (first, second) = (plane().build().unwrap(), triangle());
    let mut mesh = first.clone();
    let counts = Counts {
        vertices: 15,
        indices: 51,
    };
    assert_eq!(mesh.merge_with(&second), Ok(counts));
    let mut wanted = first;
    wanted.vertices.extend(&second.vertices);
    wanted.normals.extend(&second.normals);
    wanted.uvs.extend(&second.uvs);
    wanted.indices.extend([14, 12, 13]);
    assert_eq!(bits(&mesh), bits(&wanted));
}

#[test]
fn merging_nothing_changes_nothing() {
    let mut mesh = triangle();
    assert_eq!(mesh.merge_with(&Mesh::default()), triangle().counts());
    assert_eq!(mesh, triangle());
    let mut empty = Mesh::default();
    assert_eq!(empty.merge_with(&triangle()), triangle().counts());
    assert_eq!(empty, triangle());
}

#[test]
fn a_merge_reaches_the_limit_and_does_not_pass_it() {
    let mut mesh = filled(65_533, 0);
    let full = Counts {
        vertices: 65_536,
        indices: 3,
    };
    assert_eq!(mesh.merge_with(&triangle()), Ok(full));
    assert_eq!(mesh.indices, [65_535, 65_533, 65_534]);
    let whole = mesh.clone();
    assert_eq!(mesh.merge_with(&triangle()), Err(Refusal::Limit));
    assert_eq!(mesh, whole);
    // hexx panics here; an empty mesh adds no vertex.
    assert_eq!(mesh.merge_with(&Mesh::default()), Ok(full));
    assert_eq!(mesh, whole);
}

#[test]
fn a_stored_mesh_past_the_limit_is_refused() {
    let mut mesh = filled(65_537, 0);
    assert_eq!(mesh.scale([1.0; 3]), Err(Refusal::Limit));
    assert_eq!(mesh.centroid(), Err(Refusal::Limit));
    assert_eq!(mesh.to_stl(), Err(Refusal::Limit));
    assert_eq!(mesh.merge_with(&Mesh::default()), Err(Refusal::Limit));
}

#[test]
fn positions_and_uvs_are_scaled_and_moved() {
    let scaled = triangle().with_scale([2.0, 3.0, 5.0]).unwrap();
    let vertices = vec![[0.0, 3.0, 10.0], [6.0, 12.0, 25.0], [12.0, 21.0, 40.0]];
    assert_eq!(
        scaled,
        Mesh {
            vertices,
            ..triangle()
        }
    );
    let moved = triangle().with_offset([2.0, 3.0, 5.0]).unwrap();
    let vertices = vec![[2.0, 4.0, 7.0], [5.0, 7.0, 10.0], [8.0, 10.0, 13.0]];
    assert_eq!(
        moved,
        Mesh {
            vertices,
            ..triangle()
        }
    );
    let stretched = triangle().with_uv_scale([2.0, 3.0]).unwrap();
    let uvs = vec![[40.0, 63.0], [44.0, 69.0], [48.0, 75.0]];
    assert_eq!(stretched, Mesh { uvs, ..triangle() });
    assert_eq!(Mesh::default().with_scale([2.0; 3]), Ok(Mesh::default()));
}

/// Refused for this number of that name.
fn is_named<T: std::fmt::Debug>(answer: Result<T, Refusal>, name: &str, x: f32) {
    let Err(Refusal::Range(stray)) = answer else {
        panic!("{answer:?}");
    };
    assert_eq!(stray.field().to_string(), name);
    assert_eq!(stray.value().to_bits(), x.to_bits());
}

#[test]
fn a_parameter_out_of_range_is_named_and_changes_nothing() {
    let past = f32::from_bits(1_000_000f32.to_bits() + 1);
    let mut mesh = triangle();
    for x in [past, -past, f32::NAN, f32::INFINITY] {
        for k in 0..3 {
            let mut by = [1.0; 3];
            by[k] = x;
            let (scale, offset) = (format!("scale[{k}]"), format!("offset[{k}]"));
            is_named(mesh.scale(by), &scale, x);
            is_named(triangle().with_scale(by), &scale, x);
            is_named(mesh.offset(by), &offset, x);
            is_named(triangle().with_offset(by), &offset, x);
        }
        is_named(mesh.uv_scale([x, x]), "scale[0]", x);
        is_named(mesh.uv_scale([1_000_000.0, x]), "scale[1]", x);
        is_named(triangle().with_uv_scale([1.0, x]), "scale[1]", x);
    }
    assert_eq!(mesh, triangle());
    // What is stored may be anything.
    mesh.vertices[0] = [1e30, f32::INFINITY, 0.0];
    mesh.scale([2.0, 1.0, 1.0]).unwrap();
    assert_eq!(mesh.vertices[0], [2e30, f32::INFINITY, 0.0]);
}

#[test]
fn a_mesh_has_its_middles() {
    assert_eq!(triangle().centroid(), Ok([3.0, 4.0, 5.0]));
    assert_eq!(triangle().uv_centroid(), Ok([22.0, 23.0]));
}

#[test]
fn adding_a_job_is_merging_its_mesh() {
    let jobs: [&dyn Job; 5] = [
        &plane(),
        &column(),
        &cheap_column(),
        &heightmap(),
        &HeightMap::default(),
    ];
    for first in [Mesh::default(), triangle()] {
        let (mut added, mut merged) = (first.clone(), first);
        for job in jobs.into_iter().chain(jobs) {
            let counts = merged.merge_with(&job.build().unwrap());
            assert_eq!(added.add(job), counts);
            assert_eq!(bits(&added), bits(&merged));
        }
    }
}

/// A job that builds one vertex, with an index of the caller's choice, or is refused as it builds.
struct Point(Result<u16, Refusal>);

impl Job for Point {
    fn plan(&self) -> Result<Counts, Refusal> {
        Ok(Counts {
            vertices: 1,
            indices: 1,
        })
    }

    fn faces(&self) -> Result<usize, Refusal> {
        Ok(1)
    }

    fn window(&self, _: usize) -> Result<Window, Refusal> {
        Ok(Window {
            vertices: 0..1,
            indices: 0..1,
        })
    }

    fn build_into(&self, to: &mut MeshBuffers<'_>) -> Result<Counts, Refusal> {
        to.indices[0] = self.0?;
        self.plan()
    }

    fn build_face(&self, _: usize, to: &mut MeshBuffers<'_>) -> Result<Counts, Refusal> {
        self.build_into(to)
    }
}

fn a_refused_job_is_not_added(mesh: Mesh, job: &dyn Job, why: Refusal) {
    let mut same = mesh.clone();
    assert_eq!(same.add(job), Err(why));
    assert_eq!(bits(&same), bits(&mesh));
}

#[test]
fn a_refused_job_leaves_the_mesh_as_it_was() {
    let mut astray = heightmap();
    astray.cells[1].neighbours[0] = Some(3);
    a_refused_job_is_not_added(triangle(), &astray, Refusal::Neighbour);
    let far = Plane {
        position: [f32::NAN, 0.0],
        ..plane()
    };
    let why = far.plan().unwrap_err();
    is_named(far.plan(), "position[0]", f32::NAN);
    a_refused_job_is_not_added(triangle(), &far, why);
    let mut odd = triangle();
    odd.uvs.pop();
    a_refused_job_is_not_added(odd, &far, Refusal::Shape);
    a_refused_job_is_not_added(filled(65_531, 0), &Plane::new(CORNERS), Refusal::Limit);
    a_refused_job_is_not_added(filled(65_537, 0), &HeightMap::default(), Refusal::Limit);
    a_refused_job_is_not_added(triangle(), &Point(Ok(1)), Refusal::Index);
    a_refused_job_is_not_added(triangle(), &Point(Err(Refusal::NoFace)), Refusal::NoFace);
    let mut mesh = triangle();
    mesh.add(&Point(Ok(0))).unwrap();
    assert_eq!(mesh.indices, [2, 0, 1, 3]);
}

#[test]
fn a_mesh_is_filled_to_the_limit_by_adding() {
    let mut mesh = filled(65_530, 0);
    let full = Counts {
        vertices: 65_536,
        indices: 12,
    };
    assert_eq!(mesh.add(&Plane::new(CORNERS)), Ok(full));
    assert_eq!(mesh.indices[..3], [65_530, 65_532, 65_531]);
    assert_eq!(mesh.add(&HeightMap::default()), Ok(full));
    let capacity = mesh.vertices.capacity();
    assert_eq!(mesh.add(&Plane::new(CORNERS)), Err(Refusal::Limit));
    assert_eq!(mesh.vertices.capacity(), capacity);
    assert_eq!(mesh.counts(), Ok(full));
}
