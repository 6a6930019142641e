//! Compares hexx's and glam's own results with written-out f32 steps, bits
//! against bits, and counts in which cases other steps would be noticed.

use glam::{BVec2, Vec2, Vec3};
use oracle::answers;
use oracle::cases::{self, Cases};
use oracle::line::bits;
use oracle::random::Random;
use oracle::steps::{self, Mesh, WRITTEN, Way};
use oracle::{MeshInfo, numbers};
use std::hint::black_box;
use std::mem::{align_of, size_of};

/// How many vectors are drawn; a tenth as many faces of each kind are.
const DRAWN: usize = if cfg!(debug_assertions) {
    100_000
} else {
    1_000_000
};

fn main() {
    let profile = if cfg!(debug_assertions) {
        "debug"
    } else {
        "release"
    };
    println!("{profile}, {}", oracle::MADE_WITH);
    sizes();
    vectors();
    minimum();
    faces();
}

/// The bits of all of `floats`.
fn all_bits<const N: usize>(floats: [f32; N]) -> [u32; N] {
    floats.map(bits)
}

/// Says which types these are: plain floats, with no padding.
fn sizes() {
    let vec2 = (size_of::<Vec2>(), align_of::<Vec2>());
    let vec3 = (size_of::<Vec3>(), align_of::<Vec3>());
    let bvec2 = (size_of::<BVec2>(), align_of::<BVec2>());
    println!("size and alignment: Vec2 {vec2:?}, Vec3 {vec3:?}, BVec2 {bvec2:?}");
}

/// Any pattern at all, often one of a job's numbers.
fn any(random: &mut Random) -> f32 {
    match random.below(3) {
        0 => f32::from_bits(random.word()),
        1 => numbers::number(random),
        _ => random.pick(&[
            0.0,
            -0.0,
            f32::INFINITY,
            f32::NEG_INFINITY,
            f32::NAN,
            1e30,
            1e-45,
        ]),
    }
}

/// Tries glam's functions and the steps on numbers of every class.
fn vectors() {
    let mut random = Random::new(1);
    let mut counts = Counts::default();
    for at in 0..DRAWN {
        let mut draw = || match at % 2 {
            0 => any(&mut random),
            _ => numbers::number(&mut random),
        };
        let list: [[f32; 3]; 6] = std::array::from_fn(|_| [draw(), draw(), draw()]);
        one_vector(&mut counts, list[0]);
        sums(&mut counts, &list);
        let by = list[1][0];
        let v = Vec3::from_array(list[0]);
        counts.add(
            "v * s, by component",
            (v * by).to_array(),
            list[0].map(|x| x * by),
        );
        counts.add(
            "v / s, by component",
            (v / by).to_array(),
            list[0].map(|x| x / by),
        );
        let recip = 1.0 / by;
        counts.add(
            "rival: v / s as v * (1 / s)",
            (v / by).to_array(),
            list[0].map(|x| x * recip),
        );
    }
    counts.print();
}

/// Length, unit vector and wrapping of one vector.
fn one_vector(counts: &mut Counts, v: [f32; 3]) {
    let [x, y, z] = v;
    let (flat, solid) = (Vec2::new(x, y), Vec3::from_array(v));
    counts.add("Vec2 length", [flat.length()], [steps::length([x, y])]);
    counts.add("Vec3 length", [solid.length()], [steps::length(v)]);
    let right_first = (x * x + (y * y + z * z)).sqrt();
    counts.add(
        "rival: Vec3 length, x*x + (y*y + z*z)",
        [solid.length()],
        [right_first],
    );
    counts.add(
        "Vec2 normalize",
        flat.normalize().to_array(),
        steps::unit(&WRITTEN, [x, y]),
    );
    counts.add(
        "Vec3 normalize",
        solid.normalize().to_array(),
        steps::unit(&WRITTEN, v),
    );
    let divided = Way {
        reciprocal: false,
        ..WRITTEN
    };
    counts.add(
        "rival: Vec3 normalize, v / length",
        solid.normalize().to_array(),
        steps::unit(&divided, v),
    );
    let kept = flat.try_normalize().unwrap_or(flat).to_array();
    let r = 1.0 / steps::length([x, y]);
    let steps_kept = if r.is_finite() && r > 0.0 {
        [x * r, y * r]
    } else {
        [x, y]
    };
    counts.add("Vec2 try_normalize or kept", kept, steps_kept);
    counts.add(
        "wrap_uv",
        answers::wrap(flat).to_array(),
        steps::wrap(&WRITTEN, [x, y]),
    );
}

/// Sums of four and six, their division, and a sum of -0 alone.
fn sums(counts: &mut Counts, list: &[[f32; 3]; 6]) {
    let vectors = list.map(Vec3::from_array);
    let sum = vectors.iter().sum::<Vec3>();
    let in_order = |start: f32| {
        list.iter()
            .fold([start; 3], |s, v| std::array::from_fn(|k| s[k] + v[k]))
    };
    counts.add(
        "sum of six from +0, in order",
        sum.to_array(),
        in_order(0.0),
    );
    counts.add("rival: sum of six from -0", sum.to_array(), in_order(-0.0));
    let four = vectors[..4].iter().sum::<Vec3>() / 4.0;
    counts.add(
        "mean of four",
        four.to_array(),
        steps::mean(&WRITTEN, &list[..4]),
    );
    counts.add(
        "mean of six",
        (sum / 6.0).to_array(),
        steps::mean(&WRITTEN, list),
    );
    let reciprocal = Way {
        mean_divides: false,
        ..WRITTEN
    };
    counts.add(
        "rival: mean of six times 1/6",
        (sum / 6.0).to_array(),
        steps::mean(&reciprocal, list),
    );
    counts.add(
        "rival: mean of four times 1/4",
        four.to_array(),
        steps::mean(&reciprocal, &list[..4]),
    );
    let negative = [Vec3::splat(-0.0); 6];
    let sum = negative.iter().sum::<Vec3>();
    counts.add("sum of six -0 is +0", sum.to_array(), [0.0; 3]);
}

/// A name, and a way to take the smaller of `prev` and `next`.
type Minimum = (&'static str, fn(f32, f32) -> f32);

/// What `prev.min(next)` may be.
const MINIMA: [Minimum; 4] = [
    ("next < prev ? next : prev", |prev, next| {
        if next < prev { next } else { prev }
    }),
    ("prev < next ? prev : next", |prev, next| {
        if prev < next { prev } else { next }
    }),
    ("next < prev or prev is NaN ? next : prev", |prev, next| {
        if next < prev || prev.is_nan() {
            next
        } else {
            prev
        }
    }),
    ("prev < next or next is NaN ? prev : next", |prev, next| {
        if prev < next || next.is_nan() {
            prev
        } else {
            next
        }
    }),
];

/// Compares `prev.min(next)` with each of these on all pairs of classes.
fn minimum() {
    let classes = [0.0, -0.0, 1e-45, 1.0, 2.0, f32::INFINITY, f32::NAN];
    for (name, smaller) in MINIMA {
        let mut differ = Vec::new();
        for prev in classes {
            for next in classes {
                let [own, ours] = all_bits([
                    black_box(prev).min(black_box(next)),
                    smaller(black_box(prev), black_box(next)),
                ]);
                if own != ours {
                    differ.push(format!(
                        "({prev:?}, {next:?}): min {:?}",
                        f32::from_bits(own)
                    ));
                }
            }
        }
        println!(
            "min against {name}: differ {}: {}",
            differ.len(),
            differ.join(", ")
        );
    }
}

/// Differences by name, in the order in which they first came.
#[derive(Default)]
struct Counts(Vec<(&'static str, usize, usize)>);

impl Counts {
    /// Notes a comparison.
    fn add<const N: usize>(&mut self, name: &'static str, own: [f32; N], ours: [f32; N]) {
        let differs = usize::from(all_bits(own) != all_bits(ours));
        match self.0.iter_mut().find(|count| count.0 == name) {
            Some(count) => {
                count.1 += 1;
                count.2 += differs;
            }
            None => self.0.push((name, 1, differs)),
        }
    }

    fn print(&self) {
        for (name, tried, differ) in &self.0 {
            println!("{name}: tried {tried}, differ {differ}");
        }
    }
}

/// The written steps, and those that differ from them in one choice.
fn ways() -> Vec<(&'static str, Way)> {
    vec![
        ("as written", WRITTEN),
        (
            "v / length",
            Way {
                reciprocal: false,
                ..WRITTEN
            },
        ),
        (
            "sum from the first term",
            Way {
                sum_from_zero: false,
                ..WRITTEN
            },
        ),
        (
            "mean times 1 / count",
            Way {
                mean_divides: false,
                ..WRITTEN
            },
        ),
        (
            "previous neighbour first",
            Way {
                next_first: false,
                ..WRITTEN
            },
        ),
        (
            "both moves added first",
            Way {
                one_by_one: false,
                ..WRITTEN
            },
        ),
        (
            "uv difference times dist first",
            Way {
                ratio_first: false,
                ..WRITTEN
            },
        ),
        (
            "longer edge",
            Way {
                shorter: f32::max,
                ..WRITTEN
            },
        ),
        (
            "f32::min",
            Way {
                shorter: f32::min,
                ..WRITTEN
            },
        ),
        (
            "prev < next ? prev : next",
            Way {
                shorter: MINIMA[1].1,
                ..WRITTEN
            },
        ),
        (
            "scale and offset fused",
            Way {
                fused_offset: true,
                ..WRITTEN
            },
        ),
        (
            "remap rounded twice",
            Way {
                fused_remap: false,
                ..WRITTEN
            },
        ),
        (
            "reversed at -0",
            Way {
                below_zero: false,
                ..WRITTEN
            },
        ),
        (
            "uvs altered at the other time",
            Way {
                other_time: true,
                ..WRITTEN
            },
        ),
        (
            "inner face reversed",
            Way {
                inner_reversed: true,
                ..WRITTEN
            },
        ),
    ]
}

/// Compares hexx's faces with the steps, on the record's cases and on others.
fn faces() {
    let recorded = cases::recorded();
    let mut random = Random::new(2);
    let count = DRAWN / 10;
    let drawn = cases::drawn(&mut random, count);
    let wild = wild(&mut random, count);
    for (kind, cases) in [
        ("recorded", recorded),
        ("drawn", drawn),
        ("out of range", wild),
    ] {
        for (name, way) in ways() {
            println!("{kind}, {name}: {}", differences(&cases, &way));
        }
    }
}

/// Cases with numbers of any pattern, beyond what a job may carry.
fn wild(random: &mut Random, count: usize) -> Cases {
    let mut uv = || Vec2::new(any(random), any(random));
    let wraps: Vec<Vec2> = (0..count).map(|_| uv()).collect();
    let points = wraps
        .iter()
        .map(|&point| (cases::drawn_texture(random), point));
    let points = points.collect();
    let mut quads = Vec::new();
    let mut hexagons = Vec::new();
    for _ in 0..count {
        let mut quad = cases::drawn_quad(random);
        quad.sides = quad.sides.map(|_| Vec2::new(any(random), any(random)));
        quad.heights = quad.heights.map(|_| any(random));
        quads.push(quad);
        let mut hexagon = cases::drawn_hexagon(random);
        hexagon.corners = hexagon.corners.map(|_| Vec2::new(any(random), any(random)));
        hexagons.push(hexagon);
    }
    Cases {
        points,
        wraps,
        quads,
        hexagons,
    }
}

/// How many cases of each kind come out otherwise by `way`.
fn differences(cases: &Cases, way: &Way) -> String {
    let points = cases.points.iter().filter(|(options, point)| {
        let ours = steps::alter(way, options, point.to_array());
        all_bits(options.alter_uv(*point).to_array()) != all_bits(ours)
    });
    let wraps = cases.wraps.iter().filter(|point| {
        let ours = steps::wrap(way, point.to_array());
        all_bits(answers::wrap(**point).to_array()) != all_bits(ours)
    });
    let quads = cases
        .quads
        .iter()
        .filter(|case| !same(&answers::quad(case), &steps::quad(way, case)));
    let hexagons = cases
        .hexagons
        .iter()
        .filter(|case| !same(&answers::hexagon(case), &steps::hexagon(way, case)));
    format!(
        "differ {} of {} points, {} of {} wraps, {} of {} quads, {} of {} hexagons",
        points.count(),
        cases.points.len(),
        wraps.count(),
        cases.wraps.len(),
        quads.count(),
        cases.quads.len(),
        hexagons.count(),
        cases.hexagons.len()
    )
}

/// Whether two meshes have the same counts, indices and bits.
fn same(own: &MeshInfo, ours: &Mesh) -> bool {
    let points = |all: &[Vec3]| {
        all.iter()
            .map(|v| all_bits(v.to_array()))
            .collect::<Vec<_>>()
    };
    let our_points = |all: &[[f32; 3]]| all.iter().map(|&v| all_bits(v)).collect::<Vec<_>>();
    let uvs: Vec<_> = own.uvs.iter().map(|v| all_bits(v.to_array())).collect();
    let our_uvs: Vec<_> = ours.uvs.iter().map(|&v| all_bits(v)).collect();
    points(&own.vertices) == our_points(&ours.positions)
        && points(&own.normals) == our_points(&ours.normals)
        && uvs == our_uvs
        && own.indices == ours.indices
}
