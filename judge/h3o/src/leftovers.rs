//! The rounding of `vec2d.rs` once more, from a copy with one line more (`build.rs` makes it), which notes the leftovers r1 and r2:
//! the doubles that the branches see.
include!(concat!(env!("OUT_DIR"), "/leftovers.rs"));

use crate::coord::{self, CoordIJK, Vec3d};
use crate::{Face, Resolution};
use std::cell::Cell;

thread_local! {
    static NOTED: Cell<[f64; 2]> = const { Cell::new([f64::NAN; 2]) };
}

/// The copy's one line more calls this.
fn note(r1: f64, r2: f64) {
    NOTED.set([r1, r2]);
}

/// The copy's hexagon of a plane point, and the leftovers that were noted on the way.
pub fn rounded(point: coord::Vec2d) -> (CoordIJK, [f64; 2]) {
    NOTED.set([f64::NAN; 2]);
    let hexagon = vec2d::Vec2d::new(point.x, point.y).into();
    (hexagon, NOTED.get())
}

/// Stands for `FaceProjection`, which gives the points of `coord`.
struct FaceProjection;

impl FaceProjection {
    fn new(_value: Vec3d, _face: Face, _distance: f64) -> Self {
        unreachable!("places are asked of `coord`")
    }
    fn compute_vec2d(&self, _resolution: Resolution) -> vec2d::Vec2d {
        unreachable!("places are asked of `coord`")
    }
}
