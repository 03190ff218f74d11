//! The files of docs/src as they are.
mod coordijk;
#[path = "../../../../docs/src/src/coord/face_projection.rs"]
mod face_projection;
#[path = "../../../../docs/src/src/coord/faceijk.rs"]
mod faceijk;
#[path = "../../../../docs/src/src/coord/vec2d.rs"]
mod vec2d;
#[path = "../../../../docs/src/src/coord/vec3d.rs"]
mod vec3d;

pub use coordijk::CoordIJK;
pub use face_projection::FaceProjection;
pub use faceijk::{FaceIJK, Overage};
pub use vec2d::Vec2d;
pub use vec3d::Vec3d;

pub const SQRT3_2: f64 = 0.8660254037844386;
pub const EPSILON: f64 = 0.0000000000000001;
pub const AP7_ROT_RADS: f64 = 0.333473172251832115336090755351601070065900389;
pub const RES0_U_GNOMONIC: f64 = 0.38196601125010500003;
pub const INV_RES0_U_GNOMONIC: f64 = 2.61803398874989588842;

const fn powers() -> [f64; 17] {
    // sqrt 7 to the level: whole for even levels, one rounded product for odd ones
    let mut all = [1.0; 17];
    let mut n = 2;
    while n < 17 {
        all[n] = all[n - 2] * 7.0;
        n += 2;
    }
    n = 1;
    while n < 17 {
        all[n] = all[n - 1] * 2.6457513110645905905016157536392604257102;
        n += 2;
    }
    all
}

pub static SQRT7_POWERS: [f64; 17] = powers();

const fn inverses() -> [f64; 17] {
    let p = powers();
    let mut all = [1.0; 17];
    let mut n = 0;
    while n < 17 {
        all[n] = 1.0 / p[n];
        n += 1;
    }
    all
}

pub static INV_SQRT7_POWERS: [f64; 17] = inverses();

pub fn to_positive_angle(angle: f64) -> f64 {
    let two_pi = 2. * std::f64::consts::PI;
    let a = angle % two_pi;
    if a < 0. { a + two_pi } else { a }
}

/// Stands for `LatLng`: degrees are outside the scope.
#[derive(Debug, Clone, Copy)]
pub struct LatLng(pub Vec3d);

impl LatLng {
    pub fn lat_radians(self) -> f64 {
        unreachable!("degrees are outside the scope")
    }
    pub fn lng_radians(self) -> f64 {
        unreachable!("degrees are outside the scope")
    }
}

impl From<Vec3d> for LatLng {
    fn from(value: Vec3d) -> Self {
        Self(value)
    }
}

impl From<crate::BaseCell> for FaceIJK {
    fn from(_: crate::BaseCell) -> Self {
        unreachable!("index work is outside the scope")
    }
}

impl From<crate::CellIndex> for FaceIJK {
    fn from(_: crate::CellIndex) -> Self {
        unreachable!("index work is outside the scope")
    }
}

impl From<CoordIJK> for Vec2d {
    fn from(value: CoordIJK) -> Self {
        let i = f64::from(value.i() - value.k());
        let j = f64::from(value.j() - value.k());
        Self::new(i - j / 2., j * SQRT3_2)
    }
}
