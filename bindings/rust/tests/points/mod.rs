//! Plane points and unit vectors to ask about, and what is known of them before they are asked.
use heddleplume::{CoordIJK, Leftovers, Rounded, Vec2d};

pub const RSIN60: f64 = 1.1547005383792515;
const GOLDEN_ANGLE: f64 = 2.399963229728653;

/// Below this size no part of a point is too far.
pub const LIMIT: f64 = 33554432.0;

/// Within this of the origin a plane point's own parts are good to many digits.
pub const NEAR: f64 = 64.0;

/// The steps from a hexagon to its neighbours, in their order round it.
const STEPS: [[u32; 3]; 6] = [[1, 0, 0], [1, 1, 0], [0, 1, 0], [0, 1, 1], [0, 0, 1], [1, 0, 1]];

/// So many points of a disc, in a spiral that visits all sides of it.
pub fn spiral(count: u32, radius: f64) -> impl Iterator<Item = Vec2d> {
    (0..count).map(move |n| {
        let (out, angle) = (radius * (f64::from(n) / f64::from(count)).sqrt(), GOLDEN_ANGLE * f64::from(n));
        Vec2d::new(out * angle.cos(), out * angle.sin())
    })
}

/// So many unit vectors, round the Earth from pole to pole.
pub fn vectors(count: u32) -> impl Iterator<Item = [f64; 3]> {
    (0..count).map(move |n| {
        let (z, angle) = (2.0 * f64::from(n) / f64::from(count) - 1.0, GOLDEN_ANGLE * f64::from(n));
        let across = (1.0 - z * z).sqrt();
        [across * angle.cos(), across * angle.sin(), z]
    })
}

pub fn rounded(point: Vec2d) -> Rounded {
    point.to_ijk().expect("it is finite and near enough")
}

/// Document 01's x1 and x2: where a point lies in the coordinates of hexagons, before the folds.
pub fn before_folds(point: Vec2d) -> [f64; 2] {
    let x2 = point.y.abs() * RSIN60;
    [point.x.abs() + x2 / 2.0, x2]
}

pub fn centre(hexagon: CoordIJK) -> Vec2d {
    hexagon.centre().expect("it is reduced")
}

/// The centres of a hexagon's neighbours.
pub fn around(hexagon: CoordIJK) -> [Vec2d; 6] {
    STEPS.map(|[i, j, k]| centre(CoordIJK::new(hexagon.i + i, hexagon.j + j, hexagon.k + k).reduce()))
}

/// The hexagons up to so many steps from the origin, and a few more.
pub fn hexagons(most: u32) -> impl Iterator<Item = CoordIJK> {
    (0..=most).flat_map(move |a| (0..=most).flat_map(move |b| [[a, b, 0], [0, a, b], [b, 0, a]])).map(|[i, j, k]| CoordIJK::new(i, j, k))
}

/// The same far out, where a double has few digits left behind the point.
pub fn far_hexagons(most: u32) -> impl Iterator<Item = CoordIJK> {
    hexagons(most).map(|near| CoordIJK::new(near.i + 20_000_000, near.j + 5_000_000, near.k).reduce())
}

/// Points of a hexagon's border: on each side, corners and midpoint among them.
pub fn border(hexagon: CoordIJK) -> impl Iterator<Item = Vec2d> {
    let (at, around) = (centre(hexagon), around(hexagon));
    let corner = move |n: usize| {
        let (one, next) = (around[n % 6], around[(n + 1) % 6]);
        Vec2d::new((at.x + one.x + next.x) / 3.0, (at.y + one.y + next.y) / 3.0)
    };
    (0..6).flat_map(move |side| {
        let (from, to) = (corner(side), corner(side + 1));
        (0..=8).map(move |n| f64::from(n) / 8.0).map(move |t| Vec2d::new(from.x + t * (to.x - from.x), from.y + t * (to.y - from.y)))
    })
}

/// A number and the doubles on either side.
#[expect(clippy::incompatible_msrv, reason = "the tests alone need Rust 1.86")]
pub fn beside(number: f64) -> [f64; 3] {
    [number.next_down(), number, number.next_up()]
}

/// Leftovers on the lines by which hexagons are told apart, at the corners where three of them meet, and one double beside; of r1 so many.
pub fn on_the_lines(count: u32) -> impl Iterator<Item = Leftovers> {
    let corners = [1.0 / 3.0, 0.5, 2.0 / 3.0].into_iter().flat_map(beside);
    corners.chain((0..count).map(move |n| f64::from(n) / f64::from(count))).flat_map(|r1| {
        let lines = [(1.0 + r1) / 2.0, 1.0 - r1, 2.0 * r1, 2.0 * r1 - 1.0, r1 / 2.0];
        lines.into_iter().flat_map(beside).filter(|r2| (0.0..1.0).contains(r2)).map(move |r2| Leftovers { r1, r2 })
    })
}
