//! What the rounding leaves over, of plane points and of unit vectors, and the margin: how near the border of its hexagon a point was.
mod points;

use heddleplume::{CellLevel, CoordIJK, Frame, Leftovers, Located, Refusal, Vec2d, locate, locate_all, plane_point};
use points::{LIMIT, NEAR, RSIN60, around, before_folds, border, centre, far_hexagons, hexagons, on_the_lines, rounded, spiral, vectors};

const SIN60: f64 = 0.8660254037844386;

/// What is worked out here of plane points near the origin is good to less than this.
const CLOSE: f64 = 1e-12;

/// No margin is below it: -2^-40.
const LEAST: f64 = -1.0 / 1099511627776.0;

fn bits(left: Leftovers) -> [u64; 2] {
    [left.r1.to_bits(), left.r2.to_bits()]
}

fn margin(point: Vec2d) -> f64 {
    rounded(point).left.margin().expect("leftovers that were given are in range")
}

/// Document 01's rule: what is left of x1 and of x2.
fn by_the_rule(point: Vec2d) -> Leftovers {
    before_folds(point).map(|number| number - number.floor()).into()
}

#[test]
fn leftovers_are_those_of_the_rule() {
    for point in spiral(50_000, 3.0).chain(spiral(50_000, NEAR)).chain(spiral(50_000, LIMIT.next_down())) {
        assert_eq!(bits(rounded(point).left), bits(by_the_rule(point)), "{point:?}");
    }
    // r1 and r2 are not exchanged.
    assert_eq!(rounded(Vec2d::new(0.25, 0.0)).left, Leftovers { r1: 0.25, r2: 0.0 });
    assert_eq!(rounded(Vec2d::new(0.25, 1.0)).left, Leftovers { r1: 0.25 + RSIN60 / 2.0, r2: RSIN60 - 1.0 });
}

/// By their bits: minus zero is another number, and has the sign.
#[test]
fn leftovers_lie_from_plus_zero_to_below_one() {
    let zeros = [0.0, -0.0, 1.0, -1.0, 2.0, 33554431.0, -33554431.0];
    let on_axes = zeros.into_iter().flat_map(|x| [Vec2d::new(x, 0.0), Vec2d::new(x, -0.0)]);
    for point in on_axes.clone() {
        assert_eq!(bits(rounded(point).left), [0, 0], "{point:?}");
    }
    let centres = hexagons(20).map(centre);
    for point in centres.chain(spiral(100_000, NEAR)).chain(spiral(100_000, LIMIT.next_down())) {
        for part in bits(rounded(point).left) {
            assert!(part < 1f64.to_bits(), "{point:?}");
        }
    }
}

/// The four mirror images of a point lie in unlike hexagons, but leave the same.
#[test]
fn leftovers_are_those_before_the_folds() {
    for point in spiral(10_000, NEAR) {
        let (x, y) = (point.x.abs(), point.y.abs());
        let images = [(x, y), (-x, y), (x, -y), (-x, -y)].map(|(x, y)| rounded(Vec2d::new(x, y)));
        assert!(images.iter().all(|image| bits(image.left) == bits(images[0].left)), "{point:?}");
    }
    let (right, left) = (rounded(Vec2d::new(5.2, 3.1)), rounded(Vec2d::new(-5.2, -3.1)));
    assert!(right.left == left.left && right.hexagon != left.hexagon);
}

#[test]
fn a_place_leaves_what_its_plane_point_leaves() {
    let frame = Frame::default();
    for level in (0..16).map(CellLevel) {
        for vector in vectors(5_000) {
            let Located { place, left } = locate(&frame, level, vector).unwrap();
            let point = rounded(plane_point(&frame, place.face, level, vector).unwrap());
            assert_eq!((point.hexagon, bits(point.left)), (place.coord(), bits(left)), "{level:?} {vector:?}");
        }
    }
}

#[test]
fn a_batch_row_is_the_place_alone() {
    let (frame, level) = (Frame::default(), CellLevel(9));
    let vectors: Vec<[f64; 3]> = vectors(10_000).collect();
    let mut rows = vec![[7; 4]; vectors.len()];
    assert_eq!(locate_all(&frame, level, &vectors, &mut rows, 0), Ok(0));
    for (row, vector) in rows.into_iter().zip(vectors) {
        let place: [u32; 4] = locate(&frame, level, vector).unwrap().place.into();
        assert_eq!(row.map(i64::from), place.map(i64::from));
    }
}

#[test]
fn leftovers_out_of_range_have_no_margin() {
    for bad in [f64::NAN, f64::INFINITY, f64::NEG_INFINITY, 1.0, 2.0, -5e-324, -1.0] {
        assert_eq!(Leftovers { r1: bad, r2: 0.0 }.margin(), Err(Refusal::BadRange), "{bad}");
        assert_eq!(Leftovers { r1: 0.0, r2: bad }.margin(), Err(Refusal::BadRange), "{bad}");
    }
    assert!(Leftovers { r1: 1f64.next_down(), r2: 1f64.next_down() }.margin().is_ok());
}

/// Leftovers in 64ths, of which every double here is exact: the nearest of the four centres decides, and the six borders round it.
#[test]
fn margin_is_that_of_the_nearest_of_four_centres() {
    let from_centre = |a: f64, b: f64| (1.0 - (2.0 * a - b).abs().max((2.0 * b - a).abs()).max((a + b).abs())) / 2.0;
    for (n1, n2) in (0..64).flat_map(|n1| (0..64).map(move |n2| (n1, n2))) {
        let (r1, r2) = (f64::from(n1) / 64.0, f64::from(n2) / 64.0);
        let four = [(0.0, 0.0), (1.0, 0.0), (0.0, 1.0), (1.0, 1.0)].map(|(i, j)| from_centre(r1 - i, r2 - j));
        assert_eq!(Leftovers { r1, r2 }.margin(), Ok(four.into_iter().fold(f64::NEG_INFINITY, f64::max)), "{r1} {r2}");
    }
}

#[test]
fn margin_is_half_at_a_centre_and_none_halfway() {
    for hexagon in (0..1000).map(|i| CoordIJK::new(i, 0, 0)) {
        assert_eq!(margin(centre(hexagon)), 0.5, "{hexagon:?}");
    }
    for hexagon in hexagons(25) {
        let at = centre(hexagon);
        assert!((margin(at) - 0.5).abs() < CLOSE, "{hexagon:?}");
        for next in around(hexagon) {
            let halfway = margin(Vec2d::new((at.x + next.x) / 2.0, (at.y + next.y) / 2.0));
            assert!(halfway.abs() < CLOSE, "{hexagon:?} {next:?}: {halfway}");
        }
    }
}

/// The border towards a neighbour is the bisector between the two centres.
#[test]
fn margin_is_the_distance_to_the_nearest_bisector() {
    for point in spiral(50_000, NEAR) {
        let hexagon = rounded(point).hexagon;
        let at = centre(hexagon);
        let to_bisector = |next: Vec2d| {
            let (x, y) = (next.x - at.x, next.y - at.y);
            let apart = x.hypot(y);
            apart / 2.0 - ((point.x - at.x) * x + (point.y - at.y) * y) / apart
        };
        let nearest = around(hexagon).map(to_bisector).into_iter().fold(f64::INFINITY, f64::min);
        assert!((margin(point) - nearest).abs() < CLOSE, "{point:?}: {nearest}");
    }
}

#[test]
fn margin_is_the_same_after_sixth_turns() {
    for point in spiral(20_000, NEAR) {
        let turned = |at: &Vec2d| Vec2d::new(at.x / 2.0 - SIN60 * at.y, SIN60 * at.x + at.y / 2.0);
        for turned in std::iter::successors(Some(point), |at| Some(turned(at))).take(7) {
            assert!((margin(turned) - margin(point)).abs() < CLOSE, "{point:?} {turned:?}");
        }
    }
}

fn within_bounds(margin: f64) -> bool {
    (LEAST..=0.5).contains(&margin)
}

#[test]
fn margin_stays_within_its_bounds() {
    for point in spiral(100_000, NEAR).chain(spiral(100_000, LIMIT.next_down())) {
        assert!(within_bounds(margin(point)), "{point:?}");
    }
    for point in hexagons(25).flat_map(border) {
        assert!(within_bounds(margin(point)) && margin(point) < CLOSE, "{point:?}");
    }
    for point in far_hexagons(12).flat_map(border) {
        assert!(within_bounds(margin(point)), "{point:?}");
    }
}

#[test]
fn margin_on_the_lines_of_the_branches() {
    for left in on_the_lines(10_000) {
        let margin = left.margin().expect("both are in range");
        assert!(within_bounds(margin), "{left:?}: {margin}");
    }
}
