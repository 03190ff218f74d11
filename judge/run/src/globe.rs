//! Boundaries on the sphere: the points of the plane oracle put through the rule of one point, beside the proved ones, bit for
//! bit; and on the default frame the Rust's own boundaries with its projection, within the tolerance of one point.
use crate::borders::{self, HEXAGON, PENTAGON, Part, Shape};
use crate::vectors::{self, Frame, Most};
use crate::{Tally, chance::Chance, ours, ours::{At, Border, Globe, Said, SphereOutline, Vector, bare}, places, sphere, sphere::Point};
use h3o::coord::FaceIJK;
use h3o::{Boundary, Resolution, Vertex};

/// A shape on the sphere: the C function and the source's.
pub struct Outline {
    pub name: &'static str,
    pub plane: &'static Shape,
    ours: SphereOutline,
    theirs: fn(&FaceIJK, Resolution, Vertex, u8) -> Boundary,
}

pub const HEXAGON_SPHERE: Outline =
    Outline { name: "globe6", plane: &HEXAGON, ours: bare::hexagon_sphere, theirs: FaceIJK::hexagon_boundary };
pub const PENTAGON_SPHERE: Outline =
    Outline { name: "globe5", plane: &PENTAGON, ours: bare::pentagon_sphere, theirs: FaceIJK::pentagon_boundary };

/// A point of a plane boundary.
#[derive(Clone, Copy)]
struct OnPlane {
    face: u64,
    mark: u64,
    at: Point,
}

fn plane_points(plane: &Border) -> Vec<OnPlane> {
    let v = &plane.values;
    let at = |n: usize| (f64::from_bits(v[2 * n + 25]), f64::from_bits(v[2 * n + 26]));
    (0..v[0] as usize).map(|n| OnPlane { face: v[2 * n + 1], mark: v[2 * n + 2], at: at(n) }).collect()
}

/// The points before the first one that the plane refuses, and that refusal: such a boundary is asked for side by side.
fn until_refused(shape: &Shape, at: At, level: u32, (start, length): Part) -> (Vec<OnPlane>, u32) {
    let mut points = plane_points(&borders::oracle(shape, at, level, (start, 1)));
    for n in 0..length {
        let side = borders::oracle(shape, at, level, ((start + n) % shape.sides, 2));
        if side.number != 0 {
            return (points, side.number);
        }
        points.extend(&plane_points(&side)[1..]);
    }
    unreachable!("no side of {at:?} is refused")
}

/// The grid level of a cell level.
fn raised(level: u32) -> u32 {
    level + level % 2
}

/// The points of the plane's boundary and the refusal that follows them, 0 for none; or a refusal of the whole.
fn asked_points(shape: &Shape, at: At, level: u32, part: Part) -> Result<(Vec<OnPlane>, u32), u32> {
    let plane = borders::oracle(shape, at, level, part);
    match plane.number {
        0 => Ok((plane_points(&plane), 0)),
        12 | 13 => Ok(until_refused(shape, at, level, part)),
        n => Err(n),
    }
}

/// The points in order by the rule of one point.
fn images(frame: &Frame, level: u32, points: &[OnPlane]) -> impl Iterator<Item = Result<Vector, u32>> {
    points.iter().map(move |p| sphere::lifted(frame, p.face as usize, raised(level), p.at))
}

fn said(points: &[OnPlane], vectors: &[Vector]) -> Globe {
    let mut values = [0; 61];
    values[0] = points.len() as u64;
    for (n, (p, v)) in points.iter().zip(vectors).enumerate() {
        values[2 * n + 1..2 * n + 3].copy_from_slice(&[p.face, p.mark]);
        values[3 * n + 25..3 * n + 28].copy_from_slice(&v.map(f64::to_bits));
    }
    Said::done(values)
}

fn by_rule(shape: &Shape, frame: &Frame, at: At, level: u32, part: Part) -> Result<Globe, u32> {
    if frame.bad {
        return Err(1);
    }
    let (points, then) = asked_points(shape, at, level, part)?;
    let vectors = images(frame, level, &points).collect::<Result<Vec<_>, u32>>()?;
    if then == 0 { Ok(said(&points, &vectors)) } else { Err(then) }
}

/// The boundary by the rule: its own refusals in their order, then of the points' the first.
pub fn oracle(shape: &Shape, frame: &Frame, at: At, level: u32, part: Part) -> Globe {
    by_rule(shape, frame, at, level, part).unwrap_or_else(Said::refused)
}

/// What was seen: boundaries with crossing points; those refused by a point although the plane refuses a later one, or although
/// a later one's refusal is smaller; how many points were compared with the Rust's and how far apart they were.
#[derive(Default)]
struct Seen {
    crossed: u64,
    before_plane: u64,
    before_smaller: u64,
    compared: u64,
    apart: Most,
}

impl Seen {
    /// Counts a boundary that a point has refused.
    fn refused(&mut self, shape: &Shape, frame: &Frame, (at, level, part): (At, u32, Part), number: u32) {
        let Ok((points, then)) = asked_points(shape, at, level, part) else { return };
        self.before_plane += u64::from(then != 0 && number != then);
        self.before_smaller += u64::from(images(frame, level, &points).any(|image| image.is_err_and(|n| n < number)));
    }
    fn print(&self) {
        let Self { crossed, before_plane, before_smaller, compared, apart } = self;
        println!("  {crossed} with crossing points; refused by a point before the plane's refusal {before_plane}, before a smaller one {before_smaller}");
        println!("  {compared} points beside the Rust: up to {:.2e} apart, {:.2} of the tolerance at most", apart.length, apart.part);
    }
}

fn vector(globe: &Globe, n: usize) -> Vector {
    std::array::from_fn(|part| f64::from_bits(globe.values[3 * n + part + 25]))
}

/// Boundaries of the default frame, point by point beside the Rust's.
fn beside_rust(tally: &mut Tally, seen: &mut Seen, outline: &Outline, globe: &Globe, (at, level, part): (At, u32, Part)) {
    let plane = plane_points(&borders::oracle(outline.plane, at, level, part));
    let rust = (outline.theirs)(&places::place(at), Resolution(level as u8), Vertex(part.0 as u8), part.1 as u8);
    tally.also(rust.count == plane.len(), || format!("{} {at:?} {level} {part:?}: another count", outline.name));
    for (n, (p, r)) in plane.iter().zip(&rust.points).enumerate() {
        let far = sphere::apart(vector(globe, n), r.vector());
        let within = seen.apart.note(far, sphere::tolerance(raised(level), p.at));
        seen.compared += 1;
        tally.also(within, || format!("{} {at:?} {level} {part:?}: point {n} is {far:e} apart", outline.name));
    }
}

fn globe(tally: &mut Tally, seen: &mut Seen, outline: &Outline, frame: &Frame, (at, level, part): (At, u32, Part)) {
    let theirs = oracle(outline.plane, frame, at, level, part);
    tally.same(ours::globe(outline.ours, &frame.numbers, at, level, part), theirs, || format!("{} {at:?} {level} {part:?}", outline.name));
    if theirs.number == 0 {
        let count = theirs.values[0] as usize;
        seen.crossed += u64::from(count as u32 > part.1);
        tally.also((0..count).all(|n| !vectors::off_sphere(vector(&theirs, n))), || format!("{at:?} {level} {part:?}: off the sphere"));
        if frame.default {
            beside_rust(tally, seen, outline, &theirs, (at, level, part));
        }
    } else if [6, 8].contains(&theirs.number) {
        seen.refused(outline.plane, frame, (at, level, part), theirs.number);
    }
}

fn run(tally: &mut Tally, outline: &Outline, chance: u64, many: u64) {
    let (frame, wild, others) = (Frame::default(), sphere::wild_frames(), vectors::other_frames());
    let (mut c, mut seen) = (Chance(chance + 1), Seen::default());
    borders::each(outline.plane, chance, many, |at, level, part| {
        let any = match c.below(16) {
            0 => &others[c.below(others.len() as u64) as usize],
            1..9 => &wild[c.below(wild.len() as u64) as usize],
            _ => &frame,
        };
        globe(tally, &mut seen, outline, any, (at, level, part));
    });
    seen.print();
}

pub fn run_hexagon(tally: &mut Tally) {
    run(tally, &HEXAGON_SPHERE, 28, 4_000_000);
}

pub fn run_pentagon(tally: &mut Tally) {
    run(tally, &PENTAGON_SPHERE, 30, 3_000_000);
}
