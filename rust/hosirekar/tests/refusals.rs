//! Each refusal: when it comes, its number, and that it leaves everything as it was.

mod common;
use common::*;
use hosirekar::*;

/// Numbers, each with the name that a refusal must have for it, in the order of the fields.
type Numbers<'a> = Vec<(String, &'a mut f32)>;

fn list<'a>(name: &str, numbers: &'a mut [f32]) -> Numbers<'a> {
    let entry = |(k, number)| (format!("{name}[{k}]"), number);
    numbers.iter_mut().enumerate().map(entry).collect()
}

fn lists<'a, const N: usize>(name: &str, all: &'a mut [[f32; N]]) -> Numbers<'a> {
    let entry = |(k, own): (usize, &'a mut [f32; N])| list(&format!("{name}[{k}]"), own);
    all.iter_mut().enumerate().flat_map(entry).collect()
}

fn ends<'a>(name: &str, sides: &'a mut [[[f32; 2]; 2]]) -> Numbers<'a> {
    let entry = |(k, two): (usize, &'a mut [[f32; 2]; 2])| lists(&format!("{name}[{k}]"), two);
    sides.iter_mut().enumerate().flat_map(entry).collect()
}

fn face<'a>(name: &str, options: &'a mut FaceOptions) -> Numbers<'a> {
    let FaceOptions { uv, insetting } = options;
    let mut numbers = list(&format!("{name}.uv.scale_factor"), &mut uv.scale_factor);
    numbers.extend(list(&format!("{name}.uv.offset"), &mut uv.offset));
    numbers.extend(list(&format!("{name}.uv.rect.min"), &mut uv.rect.min));
    numbers.extend(list(&format!("{name}.uv.rect.max"), &mut uv.rect.max));
    let inset = insetting.iter_mut().map(|inset| &mut inset.scale);
    numbers.extend(inset.map(|scale| (format!("{name}.insetting.scale"), scale)));
    numbers
}

/// Those of faces that are there.
fn faces<'a>(name: &str, all: &'a mut [Option<FaceOptions>]) -> Numbers<'a> {
    let there = all
        .iter_mut()
        .enumerate()
        .filter_map(|(k, own)| Some((k, own.as_mut()?)));
    let entry = |(k, own): (usize, &'a mut _)| face(&format!("{name}[{k}]"), own);
    there.flat_map(entry).collect()
}

/// A job whose every number can be lent.
trait Numbered: Job + Clone {
    /// All that it has, but for a height range, which lends none.
    fn numbers(&mut self) -> Numbers<'_>;

    /// Holds it to what is wanted of it, and what it makes ready.
    fn held(&self, hold: impl Fn(&dyn Job))
    where
        Self: Sized,
    {
        hold(self);
    }
}

impl Numbered for Plane {
    fn numbers(&mut self) -> Numbers<'_> {
        let mut numbers = lists("corners", &mut self.corners);
        numbers.extend(list("position", &mut self.position));
        numbers.extend(face("options", &mut self.options));
        numbers.extend(list("scale", self.scale.as_mut().unwrap()));
        numbers.extend(lists("rotation", self.rotation.as_mut().unwrap()));
        numbers.extend(list("offset", self.offset.as_mut().unwrap()));
        numbers
    }
}

impl Numbered for Column {
    fn numbers(&mut self) -> Numbers<'_> {
        let mut numbers = vec![("height".to_string(), &mut self.height)];
        numbers.extend(ends("side_ends", &mut self.side_ends));
        numbers.extend(faces("sides", &mut self.sides));
        numbers.extend(lists("cap_corners", &mut self.cap_corners));
        numbers.extend(self.top.iter_mut().flat_map(|own| face("top", own)));
        numbers.extend(self.bottom.iter_mut().flat_map(|own| face("bottom", own)));
        numbers.extend(list("position", &mut self.position));
        numbers.extend(list("scale", self.scale.as_mut().unwrap()));
        numbers.extend(lists("rotation", self.rotation.as_mut().unwrap()));
        numbers.extend(list("offset", self.offset.as_mut().unwrap()));
        numbers
    }
}

impl Numbered for CheapColumn {
    fn numbers(&mut self) -> Numbers<'_> {
        let mut numbers = lists("corners", &mut self.corners);
        numbers.extend(list("centre", &mut self.centre));
        numbers.push(("height".to_string(), &mut self.height));
        numbers
    }
}

fn cell_numbers((k, cell): (usize, &mut Cell)) -> Numbers<'_> {
    let mut numbers = vec![(format!("cells[{k}].height"), &mut cell.height)];
    numbers.extend(list(&format!("cells[{k}].position"), &mut cell.position));
    numbers.extend(ends(&format!("cells[{k}].side_ends"), &mut cell.side_ends));
    numbers
}

fn custom_numbers((k, own): (usize, &mut CellOptions)) -> Numbers<'_> {
    let name = format!("custom_options[{k}]");
    let cap = own.cap.iter_mut();
    let mut numbers: Numbers<'_> = cap
        .flat_map(|cap| face(&format!("{name}.cap"), cap))
        .collect();
    numbers.extend(faces(&format!("{name}.sides"), &mut own.sides));
    numbers
}

impl Numbered for HeightMap {
    fn numbers(&mut self) -> Numbers<'_> {
        let cells = self.cells.iter_mut().enumerate();
        let mut numbers: Numbers<'_> = cells.flat_map(cell_numbers).collect();
        numbers.extend(lists("cap_corners", &mut self.cap_corners));
        numbers.extend(self.caps.iter_mut().flat_map(|own| face("caps", own)));
        numbers.extend(self.sides.iter_mut().flat_map(|own| face("sides", own)));
        let customs = self.custom_options.iter_mut().flatten().enumerate();
        numbers.extend(customs.flat_map(custom_numbers));
        if let Fringe::Heights(heights) = &mut self.fringe {
            numbers.extend(lists("fringe", heights));
        }
        numbers.extend(list("origin", self.origin.as_mut().unwrap()));
        numbers.extend(list("scale", self.scale.as_mut().unwrap()));
        numbers.extend(lists("rotation", self.rotation.as_mut().unwrap()));
        numbers.extend(list("offset", self.offset.as_mut().unwrap()));
        numbers
    }

    fn held(&self, hold: impl Fn(&dyn Job)) {
        hold(self);
        hold(&self.ready());
        nothing_is_told(self);
    }
}

/// What a refused map tells of walls and faces, there or not, is why the plan is refused.
fn nothing_is_told(map: &HeightMap) {
    let (why, ready) = (map.plan().unwrap_err(), map.ready());
    for at in [0, 999] {
        assert_eq!((map.why(at, 0), map.why(0, at)), (Err(why), Err(why)));
        assert_eq!((ready.why(at, 0), ready.why(0, at)), (Err(why), Err(why)));
        assert_eq!((map.which(at), ready.which(at)), (Err(why), Err(why)));
    }
}

fn names(job: &impl Numbered) -> Vec<String> {
    let mut job = job.clone();
    job.numbers().into_iter().map(|(name, _)| name).collect()
}

/// The number that the plan is refused for.
fn stray(job: &dyn Job) -> OutOfRange {
    match job.plan() {
        Err(Refusal::Range(stray)) => stray,
        answer => panic!("{answer:?}"),
    }
}

/// Enough for each job of which every number is tested.
const ROOM: Counts = Counts {
    vertices: 200,
    indices: 600,
};

/// Every call is refused for this number of that name, and writes nothing.
fn every_call_names(job: &dyn Job, name: &str, x: f32) {
    let stray = stray(job);
    assert_eq!(stray.field().to_string(), name);
    assert_eq!(stray.value().to_bits(), x.to_bits(), "{name}");
    let why = Refusal::Range(stray);
    let (fresh, mut none) = (filled(ROOM.vertices, ROOM.indices), Mesh::default());
    let mut mesh = fresh.clone();
    assert_eq!(job.faces(), Err(why));
    assert_eq!(job.build(), Err(why));
    assert_eq!(job.build_into(&mut mesh.buffers()), Err(why));
    assert_eq!(mesh.add(job), Err(why));
    // The range is tested before the face's number and the room.
    for face in [0, 999] {
        assert_eq!(job.window(face), Err(why));
        assert_eq!(job.build_face(face, &mut mesh.buffers()), Err(why));
        assert_eq!(job.build_face(face, &mut none.buffers()), Err(why));
    }
    assert_eq!(job.build_into(&mut none.buffers()), Err(why));
    assert_eq!(mesh, fresh);
}

const PAST: f32 = f32::from_bits(1_000_000f32.to_bits() + 1);

/// Each number in turn at its limit, and past it. At the limit a map may have other walls.
fn every_number_is_tested<J: Numbered>(job: &J, counts_stay: bool) {
    let counts = job.plan().unwrap();
    assert!(counts.vertices <= ROOM.vertices && counts.indices <= ROOM.indices);
    for (k, name) in names(job).iter().enumerate() {
        let with = |x| {
            let mut changed = job.clone();
            *changed.numbers()[k].1 = x;
            changed
        };
        for x in [1_000_000.0, -1_000_000.0, -0.0] {
            let planned = with(x).plan().unwrap();
            assert!(planned == counts || !counts_stay);
        }
        for x in [PAST, -PAST, f32::INFINITY, f32::NEG_INFINITY, f32::NAN] {
            with(x).held(|job| every_call_names(job, name, x));
        }
    }
}

/// All numbers out of range at once, and the one that is named put at the limit, until none is.
fn the_first_is_named(job: &impl Numbered) {
    let mut job = job.clone();
    for (_, number) in job.numbers() {
        *number = -PAST;
    }
    for (k, name) in names(&job).iter().enumerate() {
        job.held(|job| every_call_names(job, name, -PAST));
        *job.numbers()[k].1 = -1_000_000.0;
    }
    job.plan().unwrap();
}

#[test]
fn of_several_numbers_out_of_range_the_first_is_named() {
    the_first_is_named(&plane());
    the_first_is_named(&column());
    the_first_is_named(&cheap_column());
    the_first_is_named(&heightmap());
}

#[test]
fn the_names_are_those_of_the_fields() {
    let some = |names: Vec<String>, wanted: &[&str]| {
        for name in wanted {
            assert!(names.iter().any(|own| own == name), "{name}");
        }
        names.len()
    };
    let plane = some(
        names(&plane()),
        &["corners[2][1]", "options.insetting.scale"],
    );
    let column = some(
        names(&column()),
        &["side_ends[5][1][1]", "bottom.uv.offset[0]"],
    );
    let cheap = some(names(&cheap_column()), &["centre[1]", "height"]);
    let deepest = "custom_options[2].sides[4].uv.rect.max[1]";
    let map = some(
        names(&heightmap()),
        &["cells[2].side_ends[5][0][1]", deepest],
    );
    assert_eq!([plane, column, cheap], [38, 124, 15]);
    assert_eq!(map, 207);
}

#[test]
fn an_end_of_a_height_range_is_named() {
    for (range, name, x) in [
        (f32::NAN..=2e6, "height_range.start", f32::NAN),
        (0.0..=2e6, "height_range.end", 2e6),
    ] {
        let mut map = HeightMap {
            height_range: Some(range),
            ..heightmap()
        };
        map.held(|job| every_call_names(job, name, x));
        // It stands between the fringe and the origin.
        map.origin = Some([f32::NAN; 2]);
        map.held(|job| every_call_names(job, name, x));
        map.fringe = Fringe::Heights(vec![[3e6; 6]; 3]);
        map.held(|job| every_call_names(job, "fringe[0][0]", 3e6));
    }
}

#[test]
fn the_last_cell_of_the_longest_map_is_named() {
    let mut map = HeightMap {
        caps: None,
        ..HeightMap::new(CORNERS, vec![cell(1.0, [0.0, 0.0]); 65_536])
    };
    map.cells[65_535].side_ends[5][1][1] = f32::NAN;
    every_call_names(&map, "cells[65535].side_ends[5][1][1]", f32::NAN);
    // One cell more is another refusal, whatever its numbers.
    map.cells.push(map.cells[65_535]);
    assert_eq!(map.plan(), Err(Refusal::Shape));
}

#[test]
fn what_is_not_given_is_not_out_of_range() {
    let mut map = heightmap();
    map.caps.as_mut().unwrap().uv.offset[0] = f32::NAN;
    every_call_names(&map, "caps.uv.offset[0]", f32::NAN);
    map.caps = None;
    assert_eq!(map.plan().err(), None);
}

#[test]
fn a_refusal_says_which_number_it_is() {
    let mut map = heightmap();
    map.cells[2].height = -2_000_000.5;
    let why = map.plan().unwrap_err();
    let words = "cells[2].height is -2000000.5: make it finite and at most 1,000,000 either way";
    assert_eq!((why.to_string(), why.number()), (words.to_string(), 2));
    assert_eq!(stray(&map).to_string(), words);
    let debug = "Range(OutOfRange { field: cells[2].height, value: -2000000.5 })";
    assert_eq!(format!("{why:?}"), debug);
    // Other bits or another place make another refusal, and the same NaN the same.
    map.cells[2].height = f32::NAN;
    let nan = map.plan().unwrap_err();
    assert_eq!(map.plan(), Err(nan));
    assert_ne!(nan, why);
    map.cells.swap(1, 2);
    assert_ne!(map.plan(), Err(nan));
}

#[test]
fn a_refusal_is_small_and_copied() {
    fn copied<T: Copy + Eq + std::hash::Hash + Send + Sync + 'static>(_: T) {}
    copied(Refusal::ALL);
    copied(OutOfRange::UNKNOWN);
    assert!(size_of::<Result<Counts, Refusal>>() <= 64);
}

#[test]
fn a_number_of_which_nothing_is_known_has_no_name() {
    let Some(Refusal::Range(none)) = Refusal::from_number(2) else {
        panic!("2 is the range");
    };
    assert_eq!(none, OutOfRange::UNKNOWN);
    assert_eq!(none.field().to_string(), "");
    assert!(none.value().is_nan());
    let words = "a number is out of range: make each finite and at most 1,000,000 either way";
    assert_eq!(Refusal::Range(none).to_string(), words);
}

#[test]
fn every_number_of_a_job_is_tested() {
    every_number_is_tested(&plane(), true);
    every_number_is_tested(&column(), true);
    every_number_is_tested(&cheap_column(), true);
    every_number_is_tested(&heightmap(), false);
    let off = HeightMap {
        caps: None,
        sides: None,
        ..heightmap()
    };
    every_number_is_tested(&off, true);
    let bare = Column {
        sides: [None; 6],
        top: None,
        bottom: None,
        ..column()
    };
    every_number_is_tested(&bare, true);
}

#[test]
fn too_many_vertices_are_refused_after_numbers_and_before_faces_and_room() {
    let tall = Column {
        subdivisions: Some(2_731),
        ..column()
    };
    let mut mesh = filled(1, 1);
    assert_eq!(tall.build_into(&mut mesh.buffers()), Err(Refusal::Limit));
    assert_eq!(
        tall.build_face(usize::MAX, &mut mesh.buffers()),
        Err(Refusal::Limit)
    );
    assert_eq!(tall.faces(), Err(Refusal::Limit));
    assert_eq!(tall.window(usize::MAX), Err(Refusal::Limit));
    let both = Column {
        height: f32::NAN,
        ..tall
    };
    every_call_names(&both, "height", f32::NAN);
    assert_eq!(mesh, filled(1, 1));
}

/// What a mesh of these counts needs of each buffer.
fn needs(counts: Counts) -> [usize; 4] {
    let vertices = counts.vertices;
    [3 * vertices, 3 * vertices, 2 * vertices, counts.indices]
}

fn no_room(counts: Counts, list: usize) -> Refusal {
    Refusal::Room {
        buffer: Buffer::ALL[list],
        need: needs(counts)[list],
    }
}

fn one_short_is_refused(job: &impl Job, faces: usize) {
    let counts = job.plan().unwrap();
    let meshes = one_short(&filled(counts.vertices, counts.indices));
    for (list, short) in meshes.into_iter().enumerate() {
        let why = no_room(counts, list);
        let mut mesh = short.clone();
        assert_eq!(job.build_into(&mut mesh.buffers()), Err(why));
        for face in 0..faces {
            assert_eq!(job.build_face(face, &mut mesh.buffers()), Err(why));
        }
        for face in [faces, usize::MAX] {
            assert_eq!(
                job.build_face(face, &mut mesh.buffers()),
                Err(Refusal::NoFace)
            );
        }
        assert_eq!(mesh, short);
    }
}

#[test]
fn a_list_one_short_is_refused_and_left_as_it_was() {
    one_short_is_refused(&plane(), 1);
    one_short_is_refused(&column(), 20);
    one_short_is_refused(&cheap_column(), 1);
    one_short_is_refused(&heightmap(), 14);
}

/// Lengthens the buffer that a refusal names to the need that it tells.
fn lengthen(mesh: &mut Mesh, why: Refusal) {
    let Refusal::Room { buffer, need } = why else {
        panic!("{why}");
    };
    let length = need / buffer.width();
    assert_eq!(length * buffer.width(), need);
    match buffer {
        Buffer::Vertices => mesh.vertices.resize(length, [-77.0; 3]),
        Buffer::Normals => mesh.normals.resize(length, [-77.0; 3]),
        Buffer::Uvs => mesh.uvs.resize(length, [-77.0; 2]),
        Buffer::Indices => mesh.indices.resize(length, 7777),
    }
}

type Answer = Result<Counts, Refusal>;

/// From lists of these lengths, some of them short: each is named in its order, once.
fn lengthening_gets_past_it(job: &impl Job, mut mesh: Mesh, call: impl Fn(&mut Mesh) -> Answer) {
    let counts = job.plan().unwrap();
    let lengths = |mesh: &Mesh| {
        let (normals, uvs) = (mesh.normals.len(), mesh.uvs.len());
        [mesh.vertices.len(), normals, uvs, mesh.indices.len()]
    };
    for list in 0..4 {
        if lengths(&mesh)[list] * Buffer::ALL[list].width() >= needs(counts)[list] {
            continue;
        }
        let before = mesh.clone();
        let why = call(&mut mesh).unwrap_err();
        assert_eq!(why, no_room(counts, list));
        assert_eq!(mesh, before);
        lengthen(&mut mesh, why);
    }
    assert_eq!(call(&mut mesh), Ok(counts));
}

/// Every set of short lists: one short, and empty.
fn every_short_list_is_named(job: &impl Job, faces: usize) {
    let counts = job.plan().unwrap();
    let full = filled(counts.vertices, counts.indices);
    let (short, none) = (one_short(&full), Mesh::default());
    for set in 0..81 {
        // Each list full, one short or empty.
        let of = |list: usize| [&full, &short[list], &none][set / 3usize.pow(list as u32) % 3];
        let mesh = Mesh {
            vertices: of(0).vertices.clone(),
            normals: of(1).normals.clone(),
            uvs: of(2).uvs.clone(),
            indices: of(3).indices.clone(),
        };
        lengthening_gets_past_it(job, mesh.clone(), |to| job.build_into(&mut to.buffers()));
        for face in [0, faces - 1] {
            lengthening_gets_past_it(job, mesh.clone(), |to| {
                job.build_face(face, &mut to.buffers())
            });
        }
    }
}

#[test]
fn a_short_list_is_named_with_what_it_needs() {
    every_short_list_is_named(&plane(), 1);
    every_short_list_is_named(&column(), 20);
    every_short_list_is_named(&cheap_column(), 1);
    every_short_list_is_named(&heightmap(), 14);
}

#[test]
fn a_refusal_says_which_buffer_to_lengthen_and_to_what() {
    let words = [
        "the vertices buffer is too short: lengthen it to at least 108 numbers, three a vertex",
        "the normals buffer is too short: lengthen it to at least 108 numbers, three a vertex",
        "the uvs buffer is too short: lengthen it to at least 72 numbers, two a vertex",
        "the indices buffer is too short: lengthen it to at least 60 numbers, one an index",
    ];
    let unknown = [
        "the vertices buffer is too short: lengthen it to all numbers of the whole mesh, three a vertex",
        "the normals buffer is too short: lengthen it to all numbers of the whole mesh, three a vertex",
        "the uvs buffer is too short: lengthen it to all numbers of the whole mesh, two a vertex",
        "the indices buffer is too short: lengthen it to all numbers of the whole mesh, one an index",
    ];
    let short = one_short(&filled(36, 60)).into_iter();
    for (k, (mut mesh, buffer)) in short.zip(Buffer::ALL).enumerate() {
        let why = Column::new(CORNERS, 8.0)
            .build_into(&mut mesh.buffers())
            .unwrap_err();
        assert_eq!(
            (why.to_string(), why.number()),
            (words[k].to_string(), 51 + k as u32)
        );
        let none = Refusal::from_number(why.number());
        assert_eq!(none, Some(Refusal::Room { buffer, need: 0 }));
        assert_eq!(none.unwrap().to_string(), unknown[k]);
        assert!(words[k].contains(&buffer.to_string()));
    }
}

#[test]
fn a_mesh_whose_lists_do_not_fit_is_refused() {
    let good = plane().build().unwrap();
    let mut long = [(); 3].map(|()| good.clone());
    long[0].vertices.push([0.0; 3]);
    long[1].normals.push([0.0; 3]);
    long[2].uvs.push([0.0; 2]);
    let short = one_short(&good).into_iter().take(3);
    for bad in long.into_iter().chain(short) {
        let (mut target, mut onto) = (bad.clone(), good.clone());
        assert_eq!(bad.counts(), Err(Refusal::Shape));
        assert_eq!(target.scale([1.0; 3]), Err(Refusal::Shape));
        assert_eq!(target.offset([1.0; 3]), Err(Refusal::Shape));
        assert_eq!(target.uv_scale([1.0; 2]), Err(Refusal::Shape));
        assert_eq!(target.merge_with(&good), Err(Refusal::Shape));
        assert_eq!(onto.merge_with(&bad), Err(Refusal::Shape));
        assert_eq!(bad.centroid(), Err(Refusal::Shape));
        assert_eq!(bad.uv_centroid(), Err(Refusal::Shape));
        assert_eq!(bad.to_stl(), Err(Refusal::Shape));
        assert_eq!((bits(&target), bits(&onto)), (bits(&bad), bits(&good)));
    }
}

#[test]
fn an_index_to_no_vertex_is_not_merged() {
    let good = cheap_column().build().unwrap();
    let mut bad = good.clone();
    bad.indices[47] = 12;
    let mut target = good.clone();
    let capacity = target.vertices.capacity();
    assert_eq!(target.merge_with(&bad), Err(Refusal::Index));
    assert_eq!(target, good);
    assert_eq!(target.vertices.capacity(), capacity);
    // What is in the target is not asked.
    assert!(bad.merge_with(&good).is_ok());
}

#[test]
fn a_centroid_of_nothing_is_refused() {
    assert_eq!(Mesh::default().centroid(), Err(Refusal::Empty));
    assert_eq!(Mesh::default().uv_centroid(), Err(Refusal::Empty));
}

#[test]
fn numbers_and_words_tell_refusals_apart() {
    let numbers = [1, 2, 3, 4, 6, 7, 8, 10, 11, 51, 52, 53, 54, 55];
    assert_eq!(Refusal::ALL.map(Refusal::number), numbers);
    for (k, why) in numbers.into_iter().zip(Refusal::ALL) {
        assert_eq!(Refusal::from_number(k), Some(why));
        let error: &dyn std::error::Error = &why;
        assert!(error.to_string().contains(": "), "{why:?} says what to do");
    }
    for none in [0, 5, 9, 12, 50, 56, 257, u32::MAX] {
        assert_eq!(Refusal::from_number(none), None);
    }
    let mut words = Refusal::ALL.map(|why| why.to_string());
    words.sort();
    assert!(words.windows(2).all(|two| two[0] != two[1]));
}

#[test]
fn a_mesh_that_no_plan_has_is_not_made() {
    let zeroed = |vertices, indices| Mesh::zeroed(Counts { vertices, indices });
    assert_eq!(zeroed(0, 0), Ok(Mesh::default()));
    let most = Counts {
        vertices: 65_536,
        indices: 262_144,
    };
    assert_eq!(Mesh::zeroed(most).unwrap().counts(), Ok(most));
    for more in [1 << 20, 1 << 32, isize::MAX as usize, usize::MAX] {
        for vertices in [65_537, more] {
            assert_eq!(zeroed(vertices, 0), Err(Refusal::Limit));
            assert_eq!(zeroed(vertices, more), Err(Refusal::Limit));
        }
        for indices in [262_145, more] {
            assert_eq!(zeroed(0, indices), Err(Refusal::Limit));
        }
    }
}

/// A job of the user's own, which plans what it likes and writes nothing.
struct Boast(Counts);

impl Job for Boast {
    fn plan(&self) -> Result<Counts, Refusal> {
        Ok(self.0)
    }

    fn faces(&self) -> Result<usize, Refusal> {
        Ok(1)
    }

    fn window(&self, _: usize) -> Result<Window, Refusal> {
        Ok(Window::default())
    }

    fn build_into(&self, _: &mut MeshBuffers<'_>) -> Result<Counts, Refusal> {
        Ok(self.0)
    }

    fn build_face(&self, _: usize, _: &mut MeshBuffers<'_>) -> Result<Counts, Refusal> {
        Ok(self.0)
    }
}

#[test]
fn a_plan_past_the_limit_is_not_built() {
    for (vertices, indices) in [(65_537, 0), (0, 262_145), (usize::MAX, usize::MAX)] {
        let boast = Boast(Counts { vertices, indices });
        assert_eq!(boast.build(), Err(Refusal::Limit));
        let mut mesh = filled(3, 3);
        let before = mesh.clone();
        assert_eq!(mesh.add(&boast), Err(Refusal::Limit));
        assert_eq!(mesh, before);
    }
}

/// Every call on a mesh, each with what it must answer. None changes the mesh.
fn every_call_is_answered(mesh: &Mesh, refused: Option<Refusal>) {
    let answer = |counts: Counts| refused.map_or(Ok(counts), Err);
    let counts = Counts {
        vertices: mesh.vertices.len(),
        indices: mesh.indices.len(),
    };
    let mut same = mesh.clone();
    assert_eq!(same.scale([1.0; 3]), answer(counts));
    assert_eq!(same.offset([0.0; 3]), answer(counts));
    assert_eq!(same.uv_scale([1.0; 2]), answer(counts));
    assert_eq!(same.merge_with(&Mesh::default()), answer(counts));
    let middle = refused.or((counts.vertices == 0).then_some(Refusal::Empty));
    assert_eq!(same.centroid().err(), middle);
    assert_eq!(same.uv_centroid().err(), middle);
    let astray = counts.vertices == 0 && counts.indices > 0;
    let merged = refused
        .filter(|why| *why == Refusal::Shape)
        .or(astray.then_some(Refusal::Index))
        .or(refused);
    assert_eq!(Mesh::default().merge_with(mesh).err(), merged);
    let parts = counts.indices % 3 > 0;
    let file = refused
        .or(astray.then_some(Refusal::Index))
        .or(parts.then_some(Refusal::Triangles));
    assert_eq!(same.to_stl().err(), file);
    assert!(bits(&same) == bits(mesh));
}

/// Every call of a job that writes to these lists, of any lengths.
fn every_job_is_answered(mesh: &Mesh, job: &impl Job) {
    let counts = job.plan().unwrap();
    let has_room = [
        mesh.vertices.len() >= counts.vertices,
        mesh.normals.len() >= counts.vertices,
        mesh.uvs.len() >= counts.vertices,
        mesh.indices.len() >= counts.indices,
    ];
    let short = has_room.iter().position(|has| !has);
    let answer = short.map_or(Ok(counts), |list| Err(no_room(counts, list)));
    let mut to = mesh.clone();
    assert_eq!(
        job.build_face(usize::MAX, &mut to.buffers()),
        Err(Refusal::NoFace)
    );
    assert!(bits(&to) == bits(mesh));
    assert_eq!(job.build_face(0, &mut to.buffers()), answer);
    assert_eq!(job.build_into(&mut to.buffers()), answer);
    assert!(answer.is_ok() || bits(&to) == bits(mesh));
}

#[test]
fn lists_of_any_lengths_are_answered() {
    const LENGTHS: [usize; 3] = [0, 12, 65_537];
    for v in LENGTHS {
        for n in LENGTHS {
            for t in LENGTHS {
                for i in [0, 48, 262_145] {
                    let mesh = Mesh {
                        vertices: vec![[1.0; 3]; v],
                        normals: vec![[1.0; 3]; n],
                        uvs: vec![[1.0; 2]; t],
                        indices: vec![0; i],
                    };
                    let refused = if v != n || v != t {
                        Some(Refusal::Shape)
                    } else {
                        (v > 65_536).then_some(Refusal::Limit)
                    };
                    every_call_is_answered(&mesh, refused);
                    every_job_is_answered(&mesh, &plane());
                    every_job_is_answered(&mesh, &column());
                    every_job_is_answered(&mesh, &cheap_column());
                    every_job_is_answered(&mesh, &heightmap());
                }
            }
        }
    }
}
