//! Height maps of hills: no two cells of one are equally high, so that half of
//! all sides within it stand.

use glam::{Quat, Vec2, Vec3, vec2};
use oracle::builders::Choice;
use oracle::map_grounds::{Axial, Layout, patch};
use oracle::maps::{Map, OWN, Turn};
use oracle::numbers::within;
use oracle::random::Random;
use oracle::storage::Cell;
use oracle::{
    FaceOptions, HeightMapMeshBuilder, HexLayout, InsetOptions, InsetScaleMode, UVOptions,
};

/// What is done to the faces of a map.
pub struct Way {
    pub name: &'static str,
    options: Vec<FaceOptions>,
    all: Choice,
    /// Whether every face has an option number of its own.
    customs: bool,
    turned: bool,
    /// Of the greatest map that can be numbered.
    pub radius: i32,
}

/// A texture rectangle, and both kinds of insets.
fn three() -> [FaceOptions; 3] {
    let uv = UVOptions::new();
    let inset = |mode| InsetOptions {
        keep_inner_face: true,
        scale: 0.2,
        mode,
    };
    let option = |uv, insetting| FaceOptions { uv, insetting };
    [
        option(uv.with_rect(vec2(0.25, 0.1), vec2(0.5, 0.7)), None),
        option(uv, Some(inset(InsetScaleMode::Centroid))),
        option(uv, Some(inset(InsetScaleMode::SmallestEdge))),
    ]
}

/// All ways; the last three make more vertices of the same cells.
pub fn ways() -> [Way; 6] {
    let [rectangle, centroid, edge] = three();
    let way = |name, options: &[FaceOptions], radius| Way {
        name,
        options: options.to_vec(),
        all: match options.len() {
            1 => Choice::Entry(0),
            _ => Choice::Default,
        },
        customs: options.len() == 3,
        turned: name == "turn",
        radius,
    };
    [
        way("default", &[], 34),
        way("rectangle", &[rectangle], 34),
        way("turn", &[], 34),
        way("centroid", &[centroid], 24),
        way("edge", &[edge], 24),
        way("customs", &[rectangle, centroid, edge], 24),
    ]
}

/// The height of a hex: two waves and some noise.
fn height([q, r]: Axial, random: &mut Random) -> f32 {
    let (q, r) = (q as f32, r as f32);
    let waves = 6.0 * (0.31 * q).sin() + 4.0 * (0.23 * r + 0.1 * q).cos();
    12.0 + waves + within(random, 1.0)
}

/// A disc of hexes with hills.
pub fn hills(way: &Way, radius: i32, random: &mut Random) -> Map {
    let hexes = patch(radius);
    let heights: Vec<f32> = hexes.iter().map(|&hex| height(hex, random)).collect();
    let layout = Layout {
        pointy: random.once_in(2),
        by: vec2(1.0 + within(random, 0.5), 1.0 + within(random, 0.5)),
        origin: Vec2::ZERO,
    };
    let count = hexes.len();
    let own = |random: &mut Random| match random.below(6) {
        number @ 0..3 => number as u8,
        _ => OWN,
    };
    let customs = way
        .customs
        .then(|| (0..7 * count).map(|_| own(random)).collect());
    let turn = Quat::from_axis_angle(Vec3::new(0.48, 0.6, 0.64), 1.1);
    Map {
        customs,
        caps: way.all,
        sides: way.all,
        options: way.options.clone(),
        turn: way.turned.then_some(Turn::By(turn)),
        ..layout.map(&hexes, &heights)
    }
}

/// The first cells of a disc, all equally high: each has its cap and no side.
pub fn level(count: usize) -> Map {
    let radius = (0..).find(|radius| 3 * radius * (radius + 1) + 1 >= count as i32);
    let mut hexes = patch(radius.unwrap_or_default());
    hexes.truncate(count);
    let layout = Layout {
        pointy: true,
        by: vec2(1.0, 1.0),
        origin: Vec2::ZERO,
    };
    layout.map(&hexes, &vec![1.5; count])
}

/// What hexx is asked for a map, made before the clock starts.
pub struct Asked {
    layout: HexLayout,
    store: Vec<Cell>,
}

impl Asked {
    pub fn of(map: &Map) -> Self {
        Self {
            layout: map.layout(),
            store: map.store(),
        }
    }

    /// hexx's builder of the same map.
    pub fn builder(&self, map: &Map) -> Builder<'_> {
        map.builder(&self.layout, &self.store)
    }
}

/// hexx's builder of a map.
pub type Builder<'a> = HeightMapMeshBuilder<'a, 'a, Vec<Cell>>;

/// The same builder once more, since a build uses one up. Its functions are
/// shared and not copied.
pub fn again<'a>(builder: &Builder<'a>) -> Builder<'a> {
    HeightMapMeshBuilder {
        layout: builder.layout,
        height_range: builder.height_range.clone(),
        map: builder.map,
        top_face_options: builder.top_face_options,
        side_options: builder.side_options,
        offset: builder.offset,
        scale: builder.scale,
        rotation: builder.rotation,
        center_aligned: builder.center_aligned,
        fringe_heights: builder.fringe_heights.clone(),
        custom_caps_options: builder.custom_caps_options.clone(),
        custom_sides_options: builder.custom_sides_options.clone(),
    }
}
