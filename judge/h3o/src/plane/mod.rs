//! `faceijk.rs` once more, with a `Vec2d` that knows whether two lines made it, and a `Vec3d` that keeps the plane point it
//! would have projected.
#[path = "../../../../docs/src/src/coord/faceijk.rs"]
mod faceijk;

pub use crate::coord::CoordIJK;
pub use faceijk::{FaceIJK, Overage};

use crate::{ExtendedResolution, Face, Resolution, coord};

pub const SQRT3_2: f64 = coord::SQRT3_2;

/// The source's plane point, and whether it is where two lines meet: a crossing point may have the bits of a corner.
#[derive(Debug, Clone, Copy)]
pub struct Vec2d {
    at: coord::Vec2d,
    met: bool,
}

/// What a boundary panics with at two lines that do not meet: document 01 refuses there, before anything that follows.
pub struct NoCrossing;

impl Vec2d {
    pub const fn new(x: f64, y: f64) -> Self {
        Self { at: coord::Vec2d::new(x, y), met: false }
    }
    pub fn intersection(line1: (Self, Self), line2: (Self, Self)) -> Self {
        let at = coord::Vec2d::intersection((line1.0.at, line1.1.at), (line2.0.at, line2.1.at));
        // a divisor of zero leaves no finite result either
        if !at.x.is_finite() || !at.y.is_finite() {
            std::panic::panic_any(NoCrossing);
        }
        Self { at, met: true }
    }
    pub fn from_vec3d(_value: Vec3d, _resolution: Resolution, _face: Face, _distance: f64) -> Self {
        unreachable!("places are asked of `coord`")
    }
}

impl PartialEq for Vec2d {
    fn eq(&self, other: &Self) -> bool {
        self.at == other.at
    }
}

impl From<CoordIJK> for Vec2d {
    fn from(value: CoordIJK) -> Self {
        Self { at: value.into(), met: false }
    }
}

impl From<Vec2d> for CoordIJK {
    fn from(value: Vec2d) -> Self {
        value.at.into()
    }
}

/// A boundary point of document 01: x, y, and in the third word its face and whether it is a corner; or, from `coord`, the
/// projected point: x, y, and in the third word z.
#[derive(Debug, Clone, Copy, Default, PartialEq)]
pub struct Noted {
    pub x: f64,
    pub y: f64,
    third: u64,
}

impl Noted {
    pub fn face(self) -> u32 {
        (self.third >> 1) as u32
    }
    pub fn corner(self) -> bool {
        self.third & 1 == 1
    }
    pub fn vector(self) -> [f64; 3] {
        [self.x, self.y, f64::from_bits(self.third)]
    }
}

impl From<coord::Vec3d> for Noted {
    fn from(value: coord::Vec3d) -> Self {
        Self { x: value.x, y: value.y, third: value.z.to_bits() }
    }
}

/// Stands for `Boundary`: it notes the points in their order.
#[derive(Debug, Clone, Copy)]
pub struct Boundary {
    pub count: usize,
    pub points: [Noted; 12],
}

impl Boundary {
    pub fn new() -> Self {
        Self { count: 0, points: [Noted::default(); 12] }
    }
    pub fn push(&mut self, point: Noted) {
        self.points[self.count] = point;
        self.count += 1;
    }
}

/// Stands for `Vec3d` where a boundary projects a point: it keeps the point.
#[derive(Debug, Clone, Copy, PartialEq)]
pub struct Vec3d(Noted);

impl Vec3d {
    pub fn from_vec2d(value: Vec2d, face: Face, _level: ExtendedResolution, _is_substrate: bool) -> Self {
        Self(Noted { x: value.at.x, y: value.at.y, third: (usize::from(face) as u64) << 1 | u64::from(!value.met) })
    }
    pub fn closest_face(self) -> (Face, f64) {
        unreachable!("places are asked of `coord`")
    }
    pub fn norm(&self) -> f64 {
        unreachable!("places are asked of `coord`")
    }
}

impl From<Vec3d> for Noted {
    fn from(value: Vec3d) -> Self {
        value.0
    }
}

impl From<crate::BaseCell> for FaceIJK {
    fn from(_: crate::BaseCell) -> Self {
        unreachable!("index work is outside the scope")
    }
}
