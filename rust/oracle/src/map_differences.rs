//! Where hexx's height maps panic, wrap or take what ours refuse, each at its
//! smallest input, on both sides.

use crate::builders::Choice;
use crate::compare::hold;
use crate::differences::{TOO_GREAT, hexx, wraps};
use crate::limits::refused_everywhere;
use crate::map_limits::{bare, capped, caps, walls, with_inset};
use crate::maps::Map;

/// The rows.
pub const ROWS: [fn() -> Result<(), String>; 7] = [
    caps_wrap,
    inset_caps_wrap,
    an_inset_wall_wraps,
    merges_panic,
    cells_are_taken,
    a_height_is_too_great,
    a_height_is_no_number,
];

/// The accident: the last cap is tied to vertices 0 and 1.
fn caps_wrap() -> Result<(), String> {
    let map = caps(10_923);
    let [a, b, c, d] = [65_532, 65_533, 65_534, 65_535];
    let cap = [a, c, b, d, 1, 0, a, 1, d, d, c, a];
    wraps(hexx(|| map.hexx()), &cap)?;
    refused_everywhere(&map, 4)
}

/// All inner corners of the last cap are vertices of the first.
fn inset_caps_wrap() -> Result<(), String> {
    let map = with_inset(caps(5462), false);
    let connection = [2, 65_532, 1, 1, 7, 2];
    wraps(hexx(|| map.hexx()), &connection)?;
    refused_everywhere(&map, 4)
}

/// With caps, and all faces inset: no map has more vertices in as many cells.
fn densest(walls_in_all: usize) -> Map {
    let map = Map {
        caps: Choice::Default,
        ..walls(walls_in_all)
    };
    with_inset(map, false)
}

/// A wall whose inner corners are vertices 0 to 3: behind as many caps as can
/// be, and in as few cells as can be.
fn an_inset_wall_wraps() -> Result<(), String> {
    let plain_caps = Map {
        caps: Choice::Default,
        ..with_inset(capped(1), false)
    };
    let connection = [0, 65_532, 65_535, 65_535, 3, 0];
    for map in [plain_caps, densest(6553)] {
        wraps(hexx(|| map.hexx()), &connection)?;
        refused_everywhere(&map, 4)?;
    }
    Ok(())
}

/// A face that comes after 65,536 vertices or more.
fn merges_panic() -> Result<(), String> {
    let maps = [
        walls(16_385),
        with_inset(walls(8193), false),
        capped(2),
        caps(10_924),
        with_inset(caps(5463), true),
        densest(6554),
    ];
    for map in maps {
        hold("hexx panics", hexx(|| map.hexx()).is_none(), true)?;
        refused_everywhere(&map, 4)?;
    }
    Ok(())
}

fn cells_are_taken() -> Result<(), String> {
    let map = bare(65_537);
    let mesh = hexx(|| map.hexx()).ok_or("hexx panicked")?;
    hold("hexx's vertices", mesh.vertices.len(), 0)?;
    refused_everywhere(&map, 1)
}

fn a_height_is_too_great() -> Result<(), String> {
    let mut map = caps(1);
    map.cells[0] = TOO_GREAT;
    let mesh = hexx(|| map.hexx()).ok_or("hexx panicked")?;
    hold("hexx's height", mesh.vertices[0].y, TOO_GREAT)?;
    refused_everywhere(&map, 2)
}

/// No height is above a NaN or equal to one, so hexx puts a wall on either side
/// of the edge.
fn a_height_is_no_number() -> Result<(), String> {
    let mut map = bare(2);
    (map.sides, map.cells[27]) = (Choice::Default, f32::NAN);
    (map.neighbours[0], map.neighbours[6 + 3]) = (1, 0);
    let mesh = hexx(|| map.hexx()).ok_or("hexx panicked")?;
    hold("hexx's walls", mesh.vertices.len() / 4, 2)?;
    refused_everywhere(&map, 2)
}
