//! Writes cases and answers of faces as cells.

use crate::answers::{self, HexagonCase, QuadCase, When};
use crate::cases::Cases;
use crate::line::{Line, part};
use crate::{FaceOptions, InsetScaleMode, UVOptions};
use std::io::{self, Write};

/// Writes a record of `cases`.
pub fn write(out: &mut impl Write, cases: &Cases) -> io::Result<()> {
    part(
        out,
        "points",
        14,
        &cases.points,
        |line, (options, point)| {
            line.given_texture(options);
            line.given(&point.to_array());
            line.vec2(options.alter_uv(*point));
        },
    )?;
    part(out, "wraps", 4, &cases.wraps, |line, point| {
        line.given(&point.to_array());
        line.vec2(answers::wrap(*point));
    })?;
    part(out, "quads", 119, &cases.quads, |line, case| {
        line.given_quad(case);
        line.mesh(&answers::quad(case), 8, 30);
    })?;
    part(out, "hexagons", 172, &cases.hexagons, |line, case| {
        line.given_hexagon(case);
        line.mesh(&answers::hexagon(case), 12, 48);
    })
}

impl Line {
    fn given_texture(&mut self, options: &UVOptions) {
        self.mark(options.flip.x);
        self.mark(options.flip.y);
        self.given(&options.scale_factor.to_array());
        self.given(&options.offset.to_array());
        self.given(&options.rect.min.to_array());
        self.given(&options.rect.max.to_array());
    }

    pub(crate) fn given_options(&mut self, options: &FaceOptions) {
        self.given_texture(&options.uv);
        match options.insetting {
            None => [0; 3].into_iter().for_each(|cell| self.word(cell)),
            Some(inset) => {
                self.word(match inset.mode {
                    InsetScaleMode::Centroid => 1,
                    InsetScaleMode::SmallestEdge => 2,
                });
                self.given(&[inset.scale]);
                self.mark(inset.keep_inner_face);
            }
        }
    }

    fn given_quad(&mut self, case: &QuadCase) {
        for side in case.sides {
            self.given(&side.to_array());
        }
        self.given(&case.heights);
        self.mark(case.range.is_some());
        self.given(&case.range.unwrap_or_default());
        self.given_options(&case.options);
        self.mark(case.when == When::After);
    }

    fn given_hexagon(&mut self, case: &HexagonCase) {
        for corner in case.corners {
            self.given(&corner.to_array());
        }
        self.given_options(&case.options);
        self.mark(case.when == When::After);
    }
}
