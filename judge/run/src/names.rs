//! Names of corners: `heddleplume_same_corner` and `heddleplume_first_name` beside document 02's rule, written apart here as a search
//! over the Rust's steps; what holds of all names of a point; and that every corner of a boundary has a first name.
use crate::borders::{self, HEXAGON, PENTAGON, Part, Shape, along};
use crate::vectors::{Frame, Most};
use crate::{Tally, chance::Chance, ours, ours::{At, Border, Said, Vector}, places, sphere};
use h3o::face;

fn sum((_, i, j, k): At) -> u32 {
    i + j + k
}

fn at(numbers: [u64; 4]) -> At {
    let [f, i, j, k] = numbers.map(|n| n as u32);
    (f, i, j, k)
}

fn numbers((f, i, j, k): At) -> [u64; 4] {
    [f, i, j, k].map(u64::from)
}

/// The refusal of a place as a corner: that of a place on a grid, then 11.
fn refusal(at: At, level: u32) -> u32 {
    match places::refusal(at, Some(level), None) {
        0 if sum(at) > places::limit(level, true) => 11,
        n => n,
    }
}

/// The edges on which a point lies; there are two at a corner of its face.
fn edges(at: At, level: u32) -> Vec<u32> {
    let (_, i, j, k) = at;
    if sum(at) != places::limit(level, true) {
        return vec![];
    }
    let across = [(face::IJ, k), (face::KI, j), (face::JK, i)];
    across.into_iter().filter(|edge| edge.1 == 0).map(|edge| edge.0 as u32).collect()
}

fn over(name: At, level: u32, edge: u32) -> At {
    at(places::numbers(places::stepped(name, level, true, edge)))
}

/// All names of a point: those that steps over its edges lead to, from name to name until no new one is found.
pub fn names(at: At, level: u32) -> Vec<At> {
    let (mut found, mut next) = (vec![at], 0);
    while let Some(&name) = found.get(next) {
        for edge in edges(name, level) {
            let other = over(name, level, edge);
            if !found.contains(&other) {
                found.push(other);
            }
        }
        next += 1;
    }
    found
}

/// The one with the lowest face.
fn lowest(names: &[At]) -> At {
    let least = names.iter().map(|name| name.0).min().expect("a point has a name");
    let first: Vec<At> = names.iter().copied().filter(|name| name.0 == least).collect();
    assert!(first.len() == 1, "{first:?} on one face");
    first[0]
}

pub fn oracle_first(at: At, level: u32) -> Said<4> {
    match refusal(at, level) {
        0 => Said::done(numbers(lowest(&names(at, level)))),
        n => Said::refused(n),
    }
}

pub fn oracle_same(a: At, b: At, level: u32) -> Said<1> {
    match [refusal(a, level), refusal(b, level)].into_iter().filter(|&n| n != 0).min() {
        None => Said::done([u64::from(names(a, level).contains(&b))]),
        Some(n) => Said::refused(n),
    }
}

/// Points by where they lie, and how many were asked: within a face, on an edge, at a corner of a face.
#[derive(Default)]
struct Seen([u64; 3]);

impl Seen {
    /// How many names a point has there.
    const NAMES: [usize; 3] = [1, 2, 5];

    /// Counts a point with these names, and says whether they are as many as they should be.
    fn note(&mut self, names: &[At], level: u32) -> bool {
        let place = edges(names[0], level).len();
        self.0[place] += 1;
        names.len() == Self::NAMES[place]
    }
    fn print(&self) {
        let [within, edge, corner] = self.0;
        println!("  {within} within a face with one name, {edge} on an edge with two, {corner} at a corner of a face with five");
    }
}

/// Asks for a first name. All names of the point, the first one too, have the same.
fn first(tally: &mut Tally, seen: &mut Seen, at: At, level: u32) {
    let theirs = oracle_first(at, level);
    tally.same(ours::first_name(at, level), theirs, || format!("first {at:?} {level}"));
    if theirs.number == 0 {
        let all = names(at, level);
        tally.also(seen.note(&all, level), || format!("first {at:?} {level}: the names are {all:?}"));
        tally.also(all.iter().all(|&name| ours::first_name(name, level) == theirs), || format!("first {at:?} {level}: not for all names"));
    }
}

/// Places of every kind: on edges and at the corners of faces above all, beside the edges, within, and those that are refused.
pub fn some_corner(c: &mut Chance, level: u32) -> At {
    let m = places::around(level, true);
    let s = match c.below(16) {
        0 | 1 => return places::some_place(c, m),
        2 | 3 => m - 1 + 2 * c.below(2) as u32,
        4 | 5 => c.below(u64::from(m)) as u32,
        _ => m,
    };
    let a = if c.below(4) == 0 { 0 } else { c.below(u64::from(s) + 1) as u32 };
    along(c.below(3), c.below(20) as u32, s - a, a)
}

pub fn run_first(tally: &mut Tally) {
    let mut seen = Seen::default();
    // Up to one past the limit at levels 0 and 2.
    for (level, n) in [(0, 7), (1, 2), (2, 43), (17, 2)] {
        places::each(n, |at| first(tally, &mut seen, at, level));
    }
    let mut c = Chance(34);
    for _ in 0..10_000_000 {
        let level = places::some_level(&mut c);
        first(tally, &mut seen, some_corner(&mut c, level), level);
    }
    seen.print();
}

/// A name that a few steps lead to, over any edges on which the point lies.
fn walked(c: &mut Chance, from: At, level: u32) -> At {
    let mut name = from;
    for _ in 0..c.below(7) {
        match edges(name, level).as_slice() {
            [] => break,
            on => name = over(name, level, on[c.below(on.len() as u64) as usize]),
        }
    }
    name
}

/// Two coordinates exchanged, or a unit of one given to another.
fn missed(c: &mut Chance, (f, i, j, k): At) -> At {
    let (mut near, from) = ([i, j, k], c.below(3) as usize);
    let to = (from + 1 + c.below(2) as usize) % 3;
    if c.below(2) == 0 {
        near.swap(from, to);
    } else if near[from] > 0 {
        near[from] -= 1;
        near[to] += 1;
    }
    (f, near[0], near[1], near[2])
}

/// Two places: names of one point, names that miss each other by little, the same coordinates on two faces, or any two.
pub fn some_pair(c: &mut Chance, level: u32) -> (At, At) {
    let one = some_corner(c, level);
    let name = if refusal(one, level) == 0 { walked(c, one, level) } else { one };
    let other = match c.below(8) {
        0 => one,
        1 => (c.below(20) as u32, name.1, name.2, name.3),
        2 | 3 => missed(c, name),
        4 => some_corner(c, level),
        _ => name,
    };
    if c.below(2) == 0 { (one, other) } else { (other, one) }
}

/// What of two places holds in either order, and by their first names.
fn same(tally: &mut Tally, a: At, b: At, level: u32) -> bool {
    let theirs = oracle_same(a, b, level);
    tally.same(ours::same_corner(a, b, level), theirs, || format!("same {a:?} {b:?} {level}"));
    tally.also(ours::same_corner(b, a, level) == theirs, || format!("same {b:?} {a:?} {level}: not as in the other order"));
    let one = theirs == Said::done([1]);
    if theirs.number == 0 {
        let equal = ours::first_name(a, level) == ours::first_name(b, level);
        tally.also(equal == one, || format!("same {a:?} {b:?} {level}: not as the first names"));
    }
    one
}

pub fn run_same(tally: &mut Tally) {
    let (mut c, mut one, mut unlike) = (Chance(6), 0u64, 0u64);
    for _ in 0..10_000_000 {
        let level = places::some_level(&mut c);
        let (a, b) = some_pair(&mut c, level);
        if same(tally, a, b, level) {
            one += 1;
            unlike += u64::from(a != b);
        }
    }
    println!("  {one} of one corner, {unlike} of these by unlike names");
}

/// The vector of a name: the centre of its hexagon on the substrate grid.
fn vector(frame: &Frame, (f, i, j, k): At, level: u32) -> Vector {
    let [x, y] = ours::centre((i, j, k)).values.map(f64::from_bits);
    let lifted = ours::sphere(&frame.numbers, f, level, (x, y));
    assert_eq!(lifted.number, 0);
    lifted.values.map(f64::from_bits)
}

/// How far apart the vectors of two names of a point may lie: 2^-48. In units of 2^-53, with s the sine of the angle from the face's
/// centre: docs/DIFFERENCES.md counts 5.5 + 6.5·s for the roundings of one vector, and that of y on the plane adds some 1.6·s, which is
/// estimated, so that on a face, where s is at most 0.61, two vectors part by 21; the default frame's own doubles, taken exactly at 43
/// points of each edge, part them by up to 6.9.
const APART: f64 = 16. * f64::EPSILON;

fn one_vector(tally: &mut Tally, apart: &mut Most, frame: &Frame, at: At, level: u32) {
    let all: Vec<Vector> = names(at, level).into_iter().map(|name| vector(frame, name, level)).collect();
    let far = all.iter().flat_map(|&a| all.iter().map(move |&b| sphere::apart(a, b))).fold(0., f64::max);
    let within = apart.note(far, APART);
    tally.holds(within, || format!("{at:?} {level}: names {far:e} apart"));
}

/// The default frame takes all names of a point to one vector, but for roundings: the corners of all faces, and many points of edges.
pub fn run_sphere(tally: &mut Tally) {
    let (frame, mut c, mut apart) = (Frame::default(), Chance(35), Most::default());
    for level in (0..17).step_by(2) {
        let m = places::limit(level, true);
        for corner in 0..60 {
            one_vector(tally, &mut apart, &frame, along(corner, corner as u32 / 3, m, 0), level);
        }
        for _ in 0..200_000 {
            let a = 1 + c.below(u64::from(m) - 1) as u32;
            let point = along(c.below(3), c.below(20) as u32, a, m - a);
            one_vector(tally, &mut apart, &frame, point, level);
        }
    }
    println!("  up to {:.2e} apart, {:.2} of the tolerance at most", apart.length, apart.part);
}

/// The grid level of a cell's corners, and those of a part of its boundary as places, before they become plane points: a hexagon's are
/// crossed once, a pentagon's settled.
fn corners(shape: &Shape, (centre, level, (start, length)): (At, u32, Part)) -> (u32, Vec<At>) {
    let cell = ours::corners(centre, level).values;
    let grid = cell[0] as u32;
    let landed = |n: u32| {
        let corner = 3 * ((start + n) % shape.sides) as usize + 1;
        let from = at([centre.0.into(), cell[corner], cell[corner + 1], cell[corner + 2]]);
        let to = if shape.sides == 6 { ours::cross(from, grid, true, false) } else { ours::settle(from, grid, true) };
        let [f, i, j, k, _] = to.values;
        at([f, i, j, k])
    };
    (grid, (0..length).map(landed).collect())
}

/// The corners of a boundary among its points: face, and the bits of x and y.
fn corner_points(border: &Border) -> impl Iterator<Item = [u64; 3]> {
    let v = border.values;
    (0..v[0] as usize).filter(move |n| v[2 * n + 2] == 1).map(move |n| [v[2 * n + 1], v[2 * n + 25], v[2 * n + 26]])
}

/// The corners of a boundary that is not refused: each is the place that the boundary's point comes from, and has a first name. A hexagon
/// that is asked for where a pentagon lies is the exception: one crossing leaves some of its corners outside their face.
fn boundary(tally: &mut Tally, seen: &mut Seen, shape: &Shape, (centre, level, part): (At, u32, Part)) {
    let border = ours::border(shape.ours, centre, level, part);
    if border.number != 0 {
        return;
    }
    let what = |at: At, wrong: &str| format!("{} {centre:?} {level} {part:?}: {at:?} {wrong}", shape.name);
    let misplaced = shape.sides == 6 && (0..3).any(|axis| borders::pentagon_centre(centre.0, axis, level) == centre);
    let (grid, places) = corners(shape, (centre, level, part));
    let points: Vec<[u64; 3]> = corner_points(&border).collect();
    assert_eq!(points.len(), places.len());
    for (at, point) in places.into_iter().zip(points) {
        let [x, y] = ours::centre((at.1, at.2, at.3)).values;
        tally.also([at.0.into(), x, y] == point, || what(at, "is not where the boundary has it"));
        first(tally, seen, at, grid);
        tally.also(misplaced || refusal(at, grid) == 0, || what(at, "has no first name"));
    }
}

pub fn run_corners(tally: &mut Tally) {
    for (shape, chance, many) in [(&HEXAGON, 36, 4_000_000), (&PENTAGON, 37, 2_000_000)] {
        let mut seen = Seen::default();
        borders::each(shape, chance, many, |at, level, part| boundary(tally, &mut seen, shape, (at, level, part)));
        println!("  of {}s:", shape.name);
        seen.print();
    }
}
