//! Where a mesh is put, as the archive takes it.

use hosirekar_sys::{CChoice3, CPlacement, CTurn, CVec2, CVec3};

pub(crate) fn vec2([x, y]: [f32; 2]) -> CVec2 {
    CVec2 { x, y }
}

pub(crate) fn vec3([x, y, z]: [f32; 3]) -> CVec3 {
    CVec3 { x, y, z }
}

fn choice3(value: Option<[f32; 3]>) -> CChoice3 {
    CChoice3 {
        given: value.is_some(),
        value: vec3(value.unwrap_or_default()),
    }
}

// A plan is so short that a call for each part of its placement shows.
#[inline]
fn turn(rows: Option<[[f32; 3]; 3]>) -> CTurn {
    let [first, second, third] = rows.unwrap_or_default().map(vec3);
    CTurn {
        given: rows.is_some(),
        first,
        second,
        third,
    }
}

#[inline]
pub(crate) fn placement(
    scale: Option<[f32; 3]>,
    rotation: Option<[[f32; 3]; 3]>,
    offset: Option<[f32; 3]>,
) -> CPlacement {
    CPlacement {
        scale: choice3(scale),
        turn: turn(rotation),
        offset: choice3(offset),
    }
}
