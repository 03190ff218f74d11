//! Points on the sphere: document 02's rule, written apart here, beside `heddleplume_sphere`, bit for bit; and on the default
//! frame `Vec3d::from_vec2d` of the Rust, whose trigonometry may differ by the law in `tolerance`.
use crate::vectors::{self, Frame, Most, dot};
use crate::{Tally, chance::Chance, ours, ours::{Said, Vector}, places, round};
use h3o::coord::{CoordIJK, EPSILON, RES0_U_GNOMONIC, Vec2d, Vec3d};
use h3o::{ExtendedResolution, Face};

/// A point of a face's plane.
pub type Point = (f64, f64);

/// 3·7^(L/2), the units of a substrate grid in the plane's unit at level 0.
fn scale(grid: u32) -> f64 {
    f64::from(places::limit(grid, true) / 2)
}

/// The rule of one point, each operation rounded, or 6 or 8.
pub fn lifted(frame: &Frame, face: usize, grid: u32, (x, y): Point) -> Result<Vector, u32> {
    let (centre, u, v) = (frame.part(face, 0), frame.part(face, 1), frame.part(face, 2));
    let by = dot(u, u);
    if !x.is_finite() || !y.is_finite() || by == 0. {
        return Err(6);
    }
    let (x, y) = (x / scale(grid) / by, y / scale(grid) / by);
    let reached: Vector = std::array::from_fn(|n| (centre[n] + x * u[n]) + y * v[n]);
    let square = dot(reached, reached);
    if !square.is_finite() {
        return Err(6);
    }
    if square < 0.25 {
        return Err(8);
    }
    let length = square.sqrt();
    Ok(reached.map(|part| part / length))
}

/// The entry's answer, in the order of refusals.
fn by_rule(frame: &Frame, face: u32, grid: u32, point: Point) -> Result<Vector, u32> {
    if frame.bad {
        Err(1)
    } else if face > 19 {
        Err(3)
    } else if !grid.is_multiple_of(2) || grid > 16 {
        Err(4)
    } else {
        lifted(frame, face as usize, grid, point)
    }
}

fn said(rule: Result<Vector, u32>) -> Said<3> {
    rule.map_or_else(Said::refused, |v| Said::done(v.map(f64::to_bits)))
}

pub fn oracle(frame: &Frame, face: u32, grid: u32, point: Point) -> Said<3> {
    said(by_rule(frame, face, grid, point))
}

/// The tangent of a point's angle from its face's centre, with the Rust's unit.
fn tangent(grid: u32, (x, y): Point) -> f64 {
    x.hypot(y) / scale(grid) * RES0_U_GNOMONIC
}

/// How far apart the points of the two sides may lie: (2 + 10·s)·2^-50, s the sine of the angle from the face's centre.
/// docs/DIFFERENCES.md counts the roundings: 12.5 + 76.2·s of 2^-53 at most.
pub fn tolerance(grid: u32, point: Point) -> f64 {
    let t = tangent(grid, point);
    (2. + 10. * t / t.hypot(1.)) * 4. * f64::EPSILON
}

pub fn apart(a: Vector, b: Vector) -> f64 {
    (a[0] - b[0]).hypot(a[1] - b[1]).hypot(a[2] - b[2])
}

fn rust_point(face: u32, grid: u32, (x, y): Point) -> Vector {
    let v = Vec3d::from_vec2d(Vec2d::new(x, y), Face::new_unchecked(face), ExtendedResolution(grid as u8), true);
    [v.x, v.y, v.z]
}

/// What was seen beside the Rust: how far apart the points were, and those apart for which the Rust gives the face's centre.
#[derive(Default)]
struct Seen {
    compared: u64,
    all: Most,
    centred: u64,
    centre: Most,
    tangent: f64,
}

impl Seen {
    fn print(&self) {
        let (a, c) = (self.all, self.centre);
        println!("  {} beside the Rust: up to {:.2e} apart, {:.2} of the tolerance at most", self.compared, a.length, a.part);
        println!(
            "  for {} of them the Rust gives the face's centre, for tangents up to {:.3e}: up to {:.2e} apart, {:.2} of the tolerance",
            self.centred, self.tangent, c.length, c.part
        );
    }
}

/// Beyond this the source's squares overflow.
const FARTHEST: f64 = 1.3407e154;

fn beside_rust(tally: &mut Tally, seen: &mut Seen, face: u32, grid: u32, point: Point, v: Vector) {
    let far = apart(v, rust_point(face, grid, point));
    let within = seen.all.note(far, tolerance(grid, point));
    seen.compared += 1;
    tally.also(within, || format!("sphere {face} {grid} {point:?}: {far:e} apart"));
    if tangent(grid, point) < EPSILON {
        seen.centred += 1;
        seen.tangent = seen.tangent.max(tangent(grid, point));
        seen.centre.note(far, tolerance(grid, point));
    }
}

/// A vector given out is on the sphere: the entries that take vectors do not refuse it with 6 or 7.
fn taken(tally: &mut Tally, frame: &Frame, level: u32, v: Vector) {
    tally.also(!vectors::off_sphere(v), || format!("{v:?} is off the sphere"));
    let (nearest, place) = (ours::nearest(&frame.numbers, v).number, ours::place(&frame.numbers, v, level).number);
    tally.also(nearest == 0 && ![1, 2, 3, 4, 5, 6, 7].contains(&place), || format!("{v:?}: nearest {nearest}, place {place}"));
}

fn sphere(tally: &mut Tally, seen: &mut Seen, frame: &Frame, face: u32, grid: u32, point: Point) {
    let rule = by_rule(frame, face, grid, point);
    tally.same(ours::sphere(&frame.numbers, face, grid, point), said(rule), || format!("sphere {face} {grid} {point:?}"));
    if let Ok(v) = rule {
        taken(tally, frame, grid.min(15), v);
        if frame.default && point.0.hypot(point.1) < FARTHEST {
            beside_rust(tally, seen, face, grid, point, v);
        }
    }
}

/// A point of a face or a little beside it.
pub fn inner_point(c: &mut Chance, grid: u32) -> Point {
    let far = 2.2 * scale(grid);
    (c.unit() * far, c.unit() * far)
}

/// A point of a face and a little around it, at a corner of its grid, near its centre, on an axis or far off.
pub fn face_point(c: &mut Chance, grid: u32) -> Point {
    let (far, (x, y)) = (scale(grid.min(16)), inner_point(c, grid.min(16)));
    match c.below(8) {
        0 | 1 => {
            let corner = Vec2d::from(CoordIJK::from(Vec2d::new(x, y)));
            (corner.x, corner.y)
        }
        2 => (vectors::tiny(c) * far, vectors::tiny(c) * far),
        3 => [(x, 0.), (0., y), (x, -0.), (-0., -0.), (x, x)][c.below(5) as usize],
        4 => (vectors::tiny(c) / vectors::tiny(c) * far, vectors::tiny(c) / vectors::tiny(c) * far),
        _ => (x, y),
    }
}

/// Mostly a point of a face, else any: no number, or too large, or subnormal.
pub fn some_point(c: &mut Chance, grid: u32) -> Point {
    if c.below(4) == 0 { round::some_point(c) } else { face_point(c, grid) }
}

pub fn some_face(c: &mut Chance) -> u32 {
    if c.below(50) == 0 { [20, 21, 255, 256, u32::MAX][c.below(5) as usize] } else { c.below(20) as u32 }
}

/// A vector of the parts that the frame's test takes.
fn some_axis(c: &mut Chance) -> Vector {
    std::array::from_fn(|_| c.unit() * 3.)
}

/// A power of two from 2^-600 on: a u of that size has a square that is small, or subnormal, or zero.
fn shrunk(c: &mut Chance, v: Vector) -> Vector {
    let by = 2f64.powi(-(c.below(600) as i32 >> c.below(8)));
    v.map(|x| x * by)
}

/// Axes of a face that pass the frame's test, however little they suit a face.
fn wild_axes(c: &mut Chance, centre: Vector) -> [Vector; 2] {
    let (u, v) = (some_axis(c), some_axis(c));
    let (a, b) = (-3. * c.unit().abs(), -3. * c.unit().abs());
    let (near, far) = (centre.map(|x| x * a), centre.map(|x| x * b));
    match c.below(10) {
        0 => [[0., -0., 0.], v],
        1 => [shrunk(c, u), v],
        2 => [shrunk(c, u), shrunk(c, v)],
        3 => [u, u],
        4 => [u, u.map(|x| -x)],
        5 => [near, v],
        6 => [u, far],
        7 => [near, far],
        8 => [[3., 3., 3.], [-3., -3., -3.]],
        _ => [u, v],
    }
}

/// Frames that pass the test: centres of the default one or anywhere on the sphere, wild axes on some faces or on all.
pub fn wild_frames() -> Vec<Frame> {
    let (mut c, default) = (Chance(26), Frame::default());
    let frame = |n: usize| {
        let face = |face: usize| {
            let centre = if n.is_multiple_of(3) { vectors::uniform(&mut c) } else { default.part(face, 0) };
            let tame = n.is_multiple_of(2) && c.below(2) == 0;
            let [u, v] = if tame { [default.part(face, 1), default.part(face, 2)] } else { wild_axes(&mut c, centre) };
            [centre, u, v]
        };
        let made = Frame::new((0..20).map(face).collect::<Vec<_>>().as_flattened().as_flattened().to_vec());
        assert!(!made.bad);
        made
    };
    (0..100).map(frame).collect()
}

/// The Rust gives the zero vector for a point that is no number or too far off.
fn nowhere(tally: &mut Tally) {
    for point in [(f64::NAN, 0.), (0., f64::INFINITY), (1e160, 0.), (0., -1.35e154)] {
        let v = rust_point(0, 16, point);
        tally.holds(v == [0.; 3], || format!("from_vec2d {point:?}: {v:?}"));
    }
}

pub fn run(tally: &mut Tally) {
    nowhere(tally);
    let (frame, wild, others) = (Frame::default(), wild_frames(), vectors::other_frames());
    let (mut c, mut seen) = (Chance(27), Seen::default());
    for grid in (0..17).step_by(2) {
        for _ in 0..300_000 {
            sphere(tally, &mut seen, &frame, c.below(20) as u32, grid, face_point(&mut c, grid));
        }
    }
    for _ in 0..6_000_000 {
        let (grid, face) = (places::some_level(&mut c), some_face(&mut c));
        let point = some_point(&mut c, grid);
        let any = match c.below(8) {
            0 => &others[c.below(others.len() as u64) as usize],
            1 | 2 => &frame,
            _ => &wild[c.below(wild.len() as u64) as usize],
        };
        sphere(tally, &mut seen, any, face, grid, point);
    }
    seen.print();
}
