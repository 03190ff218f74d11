//! The hexagon that a point is given is the one whose centre is nearest: measured from the exact leftovers, over whole numbers.
mod points;

use heddleplume::{CellLevel, CoordIJK, Frame, Leftovers, Located, Rounded, Vec2d, locate, plane_point};
use points::{LIMIT, NEAR, RSIN60, before_folds, beside, border, centre, far_hexagons, hexagons, on_the_lines, rounded, spiral, vectors};

/// One hexagon, in the 2^60ths that are counted here. Smaller parts of a leftover are cut off, which changes no measure by as much as
/// 2^-55.
const ONE: i128 = 1 << 60;

/// The measure 1.
const SQUARE: i128 = ONE * ONE;

/// The measure 2^-40.
const ALLOWED: i128 = SQUARE >> 40;

/// The square of a distance, whose parts go along the axes before the folds.
fn measure([a, b]: [i128; 2]) -> i128 {
    a * a + b * b - a * b
}

/// Where a hexagon lay before it was folded as a point was. Each fold undoes itself, and the last is the first to be undone.
fn unfolded(point: Vec2d, hexagon: CoordIJK) -> [i128; 2] {
    let [i, j, k] = [hexagon.i, hexagon.j, hexagon.k].map(i128::from);
    let (i, j) = (i - k, j - k);
    let (i, j) = if point.y < 0.0 { (i - j, -j) } else { (i, j) };
    if point.x < 0.0 { [j - i, j] } else { [i, j] }
}

/// How far a point lies from the centre that it was given.
fn from_centre(point: Vec2d, Rounded { hexagon, left }: Rounded) -> [i128; 2] {
    let ([i, j], [m1, m2]) = (unfolded(point, hexagon), before_folds(point).map(|number| number as i128));
    // Times a power of two is exact.
    let [r1, r2] = [left.r1, left.r2].map(|left| (left * ONE as f64) as i128);
    [r1 - (i - m1) * ONE, r2 - (j - m2) * ONE]
}

/// The measure from the centre that was given, seen to be as small as is proved, and smaller than from the centres around.
fn nearest(point: Vec2d, given: Rounded) -> i128 {
    let [a, b] = from_centre(point, given);
    let own = measure([a, b]);
    assert!(own <= SQUARE / 3 + ALLOWED, "{point:?}: {own}");
    for (i, j) in (-3..=3).flat_map(|i| (-3..=3).map(move |j| (i, j))) {
        let other = measure([a - i * ONE, b - j * ONE]);
        assert!(own <= other + ALLOWED, "{point:?}: {own}, but {other} from {i} {j}");
    }
    own
}

fn is_nearest(point: Vec2d) {
    nearest(point, rounded(point));
}

/// The four mirror images of a point.
fn images(x: f64, y: f64) -> [Vec2d; 4] {
    [(x, y), (-x, y), (x, -y), (-x, -y)].map(|(x, y)| Vec2d::new(x, y))
}

/// A point and those whose parts are a double more or less.
fn points_beside(point: Vec2d) -> impl Iterator<Item = Vec2d> {
    beside(point.x).into_iter().flat_map(move |x| beside(point.y).map(|y| Vec2d::new(x, y)))
}

#[test]
fn nearest_of_points_all_round() {
    for point in spiral(40_000, 3.0).chain(spiral(40_000, NEAR)).chain(spiral(40_000, LIMIT.next_down())) {
        is_nearest(point);
    }
}

#[test]
fn nearest_on_borders_and_corners() {
    hexagons(8).chain(far_hexagons(6)).flat_map(border).flat_map(points_beside).for_each(is_nearest);
}

/// The measures that are allowed cannot be much smaller: a corner is √(1/3) from three centres.
#[test]
fn corners_are_a_third_away_and_centres_nothing() {
    for hexagon in hexagons(12) {
        let at = centre(hexagon);
        assert!(nearest(at, rounded(at)) < ALLOWED, "{hexagon:?}");
        for corner in border(hexagon).step_by(9) {
            assert!(nearest(corner, rounded(corner)) > SQUARE / 3 - ALLOWED, "{hexagon:?} {corner:?}");
        }
    }
}

/// Points with such leftovers, but for a last digit or two, in all four quarters.
#[test]
fn nearest_on_the_lines_of_the_branches() {
    for Leftovers { r1, r2 } in on_the_lines(300) {
        for (m1, m2) in [(1.0, 0.0), (1.0, 1.0), (7.0, 10.0), (30_000_000.0, 5_000_000.0)] {
            let x2: f64 = m2 + r2;
            images(m1 + r1 - x2 / 2.0, x2 / RSIN60).into_iter().for_each(is_nearest);
        }
    }
}

#[test]
fn nearest_just_below_the_limit() {
    let last = LIMIT.next_down();
    for (a, b) in (0..48).flat_map(|a| (0..48).map(move |b| (f64::from(a) / 16.0, f64::from(b) / 16.0))) {
        images(last - a, last - b).into_iter().for_each(is_nearest);
        images(last - a, b).into_iter().for_each(is_nearest);
        images(a, last - b).into_iter().for_each(is_nearest);
    }
}

/// Zeros of both signs, the smallest numbers, and such as are lost beside others.
#[test]
fn nearest_of_tiny_parts() {
    let sizes = [0.0, 5e-324, 1e-320, f64::MIN_POSITIVE, 1e-300, 1e-100, f64::EPSILON / 4.0, f64::EPSILON, 1e-9, 0.25, 1.0 / 3.0, 0.5, 1.0];
    for x in sizes {
        for y in sizes {
            images(x, y).into_iter().for_each(is_nearest);
        }
    }
}

/// So a hexagon is as near in every quarter as its mirror image in the first.
#[test]
fn images_lie_alike_about_their_centres() {
    for point in spiral(10_000, NEAR).chain(spiral(10_000, LIMIT.next_down())) {
        let [first, others @ ..] = images(point.x.abs(), point.y.abs()).map(|image| from_centre(image, rounded(image)));
        assert!(others.iter().all(|other| *other == first), "{point:?}");
    }
}

#[test]
fn nearest_of_places() {
    let frame = Frame::default();
    for level in (0..16).map(CellLevel) {
        for vector in vectors(3_000) {
            let Located { place, left } = locate(&frame, level, vector).unwrap();
            let point = plane_point(&frame, place.face, level, vector).unwrap();
            nearest(point, Rounded { hexagon: place.coord(), left });
        }
    }
}
