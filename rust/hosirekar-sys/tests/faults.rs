//! Every fault that can stand beside another: the first of them in the order of refusals gives the
//! number, and every place of the lists stays as it was.

mod common;
use common::jobs::{call_job, CheapColumn, JobCall};
use common::*;
use hosirekar_sys::*;

/// Counts of which three or two times as many wrap to a small number, or that wrap when one more is
/// added.
const WRAPS: [usize; 6] = [
    0x5555_5555_5555_5555,
    0x5555_5555_5555_5556,
    0x8000_0000_0000_0000,
    0x8000_0000_0000_0001,
    0xaaaa_aaaa_aaaa_aaab,
    0xffff_ffff_ffff_ffff,
];

/// Numbers far from every edge.
const EASY: [f32; 3] = [1.5, -0.75, 3.0];

#[derive(Clone, Copy, Debug, PartialEq)]
enum Call {
    Scale,
    Offset,
    TextureScale,
    Centroid,
    UvCentroid,
}

const CALLS: [Call; 5] = [
    Call::Scale,
    Call::Offset,
    Call::TextureScale,
    Call::Centroid,
    Call::UvCentroid,
];

/// A parameter, and which of its numbers is beyond the range.
#[derive(Clone, Copy, Debug)]
struct Parameter {
    by: [f32; 3],
    beyond: Option<usize>,
}

/// At ease, with the numbers that pass at the edge by turns, and with one number beyond it.
fn parameters() -> Vec<Parameter> {
    let within = |k: usize| Parameter {
        by: std::array::from_fn(|part| f32::from_bits(WITHIN[(k + part) % 4])),
        beyond: None,
    };
    let beyond = |k: usize| {
        let mut by = EASY;
        by[k % 3] = f32::from_bits(BEYOND[k / 3]);
        let beyond = Some(k % 3);
        Parameter { by, beyond }
    };
    let easy = Parameter {
        by: EASY,
        beyond: None,
    };
    let rest = (0..4).map(within).chain((0..15).map(beyond));
    std::iter::once(easy).chain(rest).collect()
}

/// The counts of a stored mesh, and how much of its lists is lent.
#[derive(Clone, Copy, Debug)]
struct Shape {
    counts: CCounts,
    lent: Lengths,
    is_short: bool,
}

fn exact(vertices: usize, indices: usize) -> Shape {
    Shape {
        counts: counts(vertices, indices),
        lent: needs(vertices, indices),
        is_short: false,
    }
}

/// A shape with one of its lists short.
fn short(shape: Shape, list: usize) -> Shape {
    Shape {
        lent: shortened(shape.lent, shape.lent, list),
        is_short: true,
        ..shape
    }
}

/// Exact lists, each one short, longer ones, no vertices, and counts that wrap when they are multiplied.
fn shapes() -> Vec<Shape> {
    let (five, none) = (exact(5, 7), exact(0, 3));
    let more = |shape: Shape| Shape {
        lent: longer(shape.lent),
        ..shape
    };
    let wrapping = |counts| Shape {
        counts,
        lent: five.lent,
        is_short: true,
    };
    let mut shapes = vec![five, more(five), exact(0, 0), more(none), none];
    shapes.extend((0..4).map(|list| short(five, list)));
    shapes.push(short(none, 3));
    shapes.extend(WRAPS.map(|great| wrapping(counts(great, 7))));
    shapes.extend(WRAPS.map(|great| wrapping(counts(5, great))));
    shapes
}

/// The order is 1, 2, 4, 8. A texture's parameter has two numbers, and a centroid has none.
fn number(call: Call, parameter: Parameter, shape: Shape) -> u32 {
    let taken = match call {
        Call::Scale | Call::Offset => 3,
        Call::TextureScale => 2,
        Call::Centroid | Call::UvCentroid => 0,
    };
    let is_beyond = parameter.beyond.is_some_and(|part| part < taken);
    match shape.counts.vertices {
        _ if shape.is_short => 1,
        _ if is_beyond => 2,
        65_537.. => 4,
        0 if taken == 0 => 8,
        _ => 0,
    }
}

/// What a call answers, and its value, or 0.
fn called(call: Call, [x, y, z]: [f32; 3], counts: CCounts, m: Lent) -> (CAnswer, [f32; 3]) {
    let (three, two) = (CVec3 { x, y, z }, CVec2 { x, y });
    let (v, n, t, i) = (m.vertices, m.normals, m.uvs, m.indices);
    match call {
        Call::Scale => (hosirekar_scale(counts, three, v, n, t, i), [0.0; 3]),
        Call::Offset => (hosirekar_offset(counts, three, v, n, t, i), [0.0; 3]),
        Call::TextureScale => (hosirekar_texture_scale(counts, two, v, n, t, i), [0.0; 3]),
        Call::Centroid => {
            let made = hosirekar_centroid(counts, v, n, t, i);
            let CVec3 { x, y, z } = made.centroid;
            (made.answer, [x, y, z])
        }
        Call::UvCentroid => {
            let made = hosirekar_uv_centroid(counts, v, n, t, i);
            (made.answer, [made.centroid.x, made.centroid.y, 0.0])
        }
    }
}

/// The mean of every part of the first points of a list, in order and from 0 on.
fn mean<const N: usize>(numbers: &[f32], count: usize) -> [f32; 3] {
    let points = numbers.chunks(N).take(count);
    let sum = points.fold([0.0; 3], |mut sum, point| {
        for (part, x) in sum.iter_mut().zip(point) {
            *part += *x;
        }
        sum
    });
    let mut mean = [0.0; 3];
    for part in 0..N {
        mean[part] = sum[part] / count as f32;
    }
    mean
}

/// What a call that is done should leave, and its value.
fn stored(call: Call, by: [f32; 3], count: usize, mesh: &mut Mesh) -> [f32; 3] {
    let points = mesh
        .vertices
        .chunks_mut(3)
        .take(count)
        .flatten()
        .enumerate();
    match call {
        Call::Scale => points.for_each(|(place, x)| *x *= by[place % 3]),
        Call::Offset => points.for_each(|(place, x)| *x += by[place % 3]),
        Call::TextureScale => {
            let points = mesh.uvs.chunks_mut(2).take(count).flatten().enumerate();
            points.for_each(|(place, x)| *x *= by[place % 2]);
        }
        Call::Centroid => return mean::<3>(&mesh.vertices, count),
        Call::UvCentroid => return mean::<2>(&mesh.uvs, count),
    }
    [0.0; 3]
}

/// Holds a call on a stored mesh to its number, counts and value, and to every place of its lists.
fn hold_stored(call: Call, parameter: Parameter, shape: Shape) {
    let what = format!("{call:?}, {parameter:?}, {shape:?}");
    let number = number(call, parameter, shape);
    let fresh = Mesh::known(longer(shape.lent));
    let mut wanted = fresh.clone();
    let value = match number {
        0 => stored(call, parameter.by, shape.counts.vertices, &mut wanted),
        _ => [0.0; 3],
    };
    let mut made = fresh;
    let (given, middle) = called(call, parameter.by, shape.counts, made.front(shape.lent));
    assert_eq!(given, answer(number, shape.counts), "{what}");
    hold(&middle, &value, format_args!("{what}: the value"));
    made.hold(&wanted, what);
}

/// Holds every call with every parameter on every shape.
fn hold_all(shapes: &[Shape], parameters: &[Parameter]) {
    for shape in shapes {
        for parameter in parameters {
            for call in CALLS {
                hold_stored(call, *parameter, *shape);
            }
        }
    }
}

#[test]
fn stored_meshes_with_every_set_of_faults() {
    let (parameters, shapes) = (parameters(), shapes());
    assert_eq!(CALLS.len() * parameters.len() * shapes.len(), 2200);
    hold_all(&shapes, &parameters);
}

#[test]
fn stored_meshes_of_65536_vertices_and_of_one_more() {
    let (full, above) = (exact(65_536, 7), exact(65_537, 7));
    let mut shapes = vec![full, above];
    shapes.extend((0..4).map(|list| short(above, list)));
    let parameters = parameters();
    // At ease, just beyond the range, and NaN.
    let parameters = [parameters[0], parameters[6], parameters[12]];
    assert_eq!(CALLS.len() * parameters.len() * shapes.len(), 90);
    hold_all(&shapes, &parameters);
}

/// The numbers of a cheap column: twelve of its corners, two of its centre, and its height. That at
/// `place` is another, if there is one.
fn cheap_numbers(place: usize, value: f32) -> [f32; 15] {
    std::array::from_fn(|k| match k {
        _ if k == place => value,
        _ if k % 3 == 0 => -known(5, k * 97),
        _ => known(6, k * 89),
    })
}

/// The triangles of hexx's table.
const TRIANGLES: [u16; 48] = [
    0, 2, 1, 3, 5, 4, 0, 5, 3, 3, 2, 0, 0, 1, 7, 7, 6, 0, 1, 2, 8, 8, 7, 1, 2, 3, 9, 9, 8, 2, 3, 4,
    10, 10, 9, 3, 4, 5, 11, 11, 10, 4, 5, 0, 6, 6, 11, 5,
];

/// The mesh of a cheap column with these numbers.
fn cheap_mesh(numbers: [f32; 15]) -> Mesh {
    let [.., x, z, height] = numbers;
    let mut mesh = Mesh::known([0; 4]);
    for y in [height, 0.0] {
        for corner in numbers[..12].chunks(2) {
            mesh.vertices.extend([corner[0], y, corner[1]]);
            mesh.normals.extend([corner[0] - x, 0.0, corner[1] - z]);
            let uv = hosirekar_wrap_uv(CVec2 {
                x: corner[0],
                y: corner[1],
            });
            mesh.uvs.extend([uv.x, uv.y]);
        }
    }
    mesh.indices.extend(TRIANGLES);
    mesh
}

const JOB_CALLS: [JobCall; 5] = [
    JobCall::Plan,
    JobCall::Build,
    JobCall::Face(0),
    JobCall::Face(1),
    JobCall::Face(usize::MAX),
];

/// The order is 1, 2, 6, 51 to 54. A plan asks for no face and no room.
fn cheap_number(call: JobCall, corners: usize, is_beyond: bool, tight: Option<usize>) -> u32 {
    match call {
        _ if corners != 12 => 1,
        _ if is_beyond => 2,
        JobCall::Face(1..) => 6,
        JobCall::Build | JobCall::Face(_) => tight.map_or(0, room_number),
        JobCall::Plan => 0,
    }
}

/// Holds the five calls of a cheap column with so many corners and one number at `place`, lent these.
fn hold_cheap(corners: usize, place: usize, value: u32, lent: Lengths) {
    let numbers = cheap_numbers(place, f32::from_bits(value));
    let mut list = numbers[..12].to_vec();
    list.resize(corners, 1.0);
    let job = CCheapColumn {
        centre: CVec2 {
            x: numbers[12],
            y: numbers[13],
        },
        height: numbers[14],
    };
    let job = CheapColumn { job, corners: list };
    let is_beyond = place < 15 && BEYOND.contains(&value);
    let need = needs(12, 48);
    let fresh = Mesh::known(longer(need));
    for call in JOB_CALLS {
        let what = format!("{call:?}, {corners} corners, {value:08x} at {place}, lent {lent:?}");
        let number = cheap_number(call, corners, is_beyond, first_short(lent, need));
        let mut made = fresh.clone();
        let given = call_job(&job, call, made.front(lent));
        assert_eq!(given, answer(number, counts(12, 48)), "{what}");
        match (number, call) {
            (0, JobCall::Build | JobCall::Face(_)) => {
                made.hold(&fresh.clone().with_front(&cheap_mesh(numbers)), what)
            }
            _ => made.hold(&fresh, what),
        }
    }
}

#[test]
fn cheap_columns_with_every_set_of_faults() {
    let need = needs(12, 48);
    let mut rooms = vec![need];
    rooms.extend((0..4).map(|list| shortened(need, need, list)));
    let values = [&BEYOND[..], &WITHIN[..]].concat();
    let (corners, places) = ([12, 11, 13, 0], 0..16);
    let cases = corners.len() * places.len() * values.len() * rooms.len() * JOB_CALLS.len();
    assert_eq!(cases, 14_400);
    for corners in corners {
        for place in places.clone() {
            for value in &values {
                for room in &rooms {
                    hold_cheap(corners, place, *value, *room);
                }
            }
        }
    }
}
