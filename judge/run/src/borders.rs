//! Corners and boundaries: `vertices`, `hexagon_boundary` and `pentagon_boundary` of the Rust beside the proved ones, every
//! point by its face, its bits and its mark.
use crate::{Tally, chance::Chance, ours, ours::{At, Border, Said, bare}, places, places::LARGEST};
use h3o::coord::{CoordIJK, FaceIJK};
use h3o::{Boundary, Face, Resolution, Vertex, plane, plane::NoCrossing};
use std::any::Any;
use std::panic;

/// What is walked round: the C function, the source's, and how many sides it has.
pub struct Shape {
    pub name: &'static str,
    pub sides: u32,
    pub ours: ours::Outline,
    theirs: fn(&plane::FaceIJK, Resolution, Vertex, u8) -> Boundary,
}

pub const HEXAGON: Shape = Shape { name: "hexagon", sides: 6, ours: bare::hexagon, theirs: plane::FaceIJK::hexagon_boundary };
pub const PENTAGON: Shape = Shape { name: "pentagon", sides: 5, ours: bare::pentagon, theirs: plane::FaceIJK::pentagon_boundary };

/// A part of a boundary: the first corner and how many.
pub type Part = (u32, u32);

pub fn on_plane((f, i, j, k): At) -> plane::FaceIJK {
    plane::FaceIJK::new(Face::new_unchecked(f), CoordIJK::new(i as i32, j as i32, k as i32))
}

/// i + j + k of a centre after the apertures, as document 01 tests it for 11, and the limit there.
pub fn sum_and_limit(at: At, level: u32) -> (u32, u32) {
    let mut centre = places::place(at);
    let grid = centre.vertices(Resolution(level as u8), &mut []);
    let c = centre.coord;
    ((c.i() + c.j() + c.k()) as u32, places::limit(usize::from(grid) as u32, true))
}

/// Document 01's refusal before any crossing point is looked for, in the order of refusals.
fn refusal(at: At, level: u32, bad_range: bool, tests_face: bool) -> u32 {
    if at.0 > 19 {
        return 3;
    }
    if level > 15 {
        return 4;
    }
    if bad_range {
        return 5;
    }
    if places::not_reduced(at) {
        return 10;
    }
    let (s, m) = sum_and_limit(at, level);
    if tests_face && s > m { 11 } else { 0 }
}

pub fn oracle_corners(at: At, level: u32) -> Said<19> {
    match refusal(at, level, false, false) {
        0 => {
            let mut six = [FaceIJK::default(); 6];
            let grid = places::place(at).vertices(Resolution(level as u8), &mut six);
            let six: [[u64; 4]; 6] = six.map(places::numbers);
            assert!(six.iter().all(|c| c[0] == u64::from(at.0)));
            Said::done(std::array::from_fn(|n| if n == 0 { usize::from(grid) as u64 } else { six[(n - 1) / 3][(n - 1) % 3 + 1] }))
        }
        n => Said::refused(n),
    }
}

fn corners(tally: &mut Tally, at: At, level: u32) {
    tally.same(ours::corners(at, level), oracle_corners(at, level), || format!("corners {at:?} {level}"));
}

/// Runs the Rust without a word on the error stream should it panic.
fn caught<T>(work: impl FnOnce() -> T + panic::UnwindSafe) -> Result<T, Box<dyn Any + Send>> {
    let loud = panic::take_hook();
    panic::set_hook(Box::new(|_| {}));
    let outcome = panic::catch_unwind(work);
    panic::set_hook(loud);
    outcome
}

/// The refusal that a panic of the Rust stands for; any other panic goes on.
fn refusal_of(panicked: Box<dyn Any + Send>) -> u32 {
    if panicked.is::<NoCrossing>() {
        return 13;
    }
    let words = panicked.downcast_ref::<String>().map(String::as_str).or(panicked.downcast_ref::<&str>().copied()).unwrap_or("");
    let no_direction = ["invalid face direction", "invalid adjacent face direction", "the len is 4 but the index is 7"];
    if no_direction.iter().any(|end| words.ends_with(end)) {
        return 12;
    }
    panic::resume_unwind(panicked)
}

fn numbers(b: &Boundary) -> [u64; 49] {
    let value = |n: usize| match n {
        0 => b.count as u64,
        1..25 => {
            let (p, used) = (b.points[(n - 1) / 2], (n - 1) / 2 < b.count);
            let mark = if !used { 0 } else if p.corner() { 1 } else { 2 };
            if n % 2 == 1 { p.face().into() } else { mark }
        }
        _ => {
            let p = b.points[(n - 25) / 2];
            if n % 2 == 1 { p.x.to_bits() } else { p.y.to_bits() }
        }
    };
    std::array::from_fn(value)
}

pub fn oracle(shape: &Shape, at: At, level: u32, (start, length): Part) -> Border {
    match refusal(at, level, start >= shape.sides || length > shape.sides, true) {
        0 => match caught(|| (shape.theirs)(&on_plane(at), Resolution(level as u8), Vertex(start as u8), length as u8)) {
            Ok(b) => Said::done(numbers(&b)),
            Err(panicked) => Said::refused(refusal_of(panicked)),
        },
        n => Said::refused(n),
    }
}

/// Asks for a boundary, and counts it if it has crossing points.
fn border(tally: &mut Tally, crossed: &mut u64, shape: &Shape, at: At, level: u32, part: Part) {
    let theirs = oracle(shape, at, level, part);
    *crossed += u64::from(theirs.number == 0 && theirs.values[0] > u64::from(part.1));
    tally.same(ours::border(shape.ours, at, level, part), theirs, || format!("{} {at:?} {level} {part:?}", shape.name));
}

/// A triple with its two numbers on two of the axes.
pub fn along(axes: u64, face: u32, a: u32, b: u32) -> At {
    match axes % 3 {
        0 => (face, a, b, 0),
        1 => (face, 0, a, b),
        _ => (face, b, 0, a),
    }
}

/// A cell whose centre has a on one axis and lies as near the limit of its face as it can, then a few cells off.
fn edge_cell(c: &mut Chance, level: u32) -> At {
    let (face, axes) = (c.below(20) as u32, c.below(3));
    let m = places::limit(level, false);
    let a = c.below(u64::from(m) + 1) as u32;
    let inside = |b: u32| {
        let (s, most) = sum_and_limit(along(axes, face, a, b), level);
        s <= most
    };
    let (mut low, mut high) = (0, 4 * m);
    while low < high {
        let b = (low + high).div_ceil(2);
        if inside(b) {
            low = b;
        } else {
            high = b - 1;
        }
    }
    along(axes, face, a, (low + 1).saturating_sub(c.below(5) as u32))
}

/// The corners of a face are the centres of pentagons: 2·7^(l/2) along an axis, at an odd level turned by aperture 7 CCW.
pub fn pentagon_centre(face: u32, axis: u64, level: u32) -> At {
    let far = 2 * 7u32.pow(level / 2);
    match (level % 2, axis % 3) {
        (0, _) => along(axis, face, far, 0),
        (_, 0) => (face, 3 * far, 0, far),
        (_, 1) => (face, far, 3 * far, 0),
        _ => (face, 0, far, 3 * far),
    }
}

fn damaged(c: &mut Chance, (f, i, j, k): At) -> At {
    match c.below(4) {
        0 => (20 + c.below(5) as u32, i, j, k),
        1 => (f, i + 1, j + 1, k + 1),
        2 => along(c.below(3), f, LARGEST + c.below(3) as u32 - 1, c.below(3) as u32),
        _ => along(c.below(3), f, c.below(u64::from(LARGEST) + 2) as u32, c.below(u64::from(LARGEST) + 2) as u32),
    }
}

/// Cells all over the faces and beyond, many near the limit and near the corners of the faces.
pub fn some_cell(c: &mut Chance, level: u32) -> At {
    let good = level.min(15);
    let all = 3 * u64::from(places::limit(good, false)) + 1;
    let face = c.below(20) as u32;
    match c.below(16) {
        0 => pentagon_centre(face, c.below(3), good),
        1 => {
            let (f, i, j, k) = pentagon_centre(face, c.below(3), good);
            let (i, j, k) = (i + c.below(3) as u32, j + c.below(3) as u32, k + c.below(3) as u32);
            let least = i.min(j).min(k);
            (f, i - least, j - least, k - least)
        }
        2 => {
            let at = along(c.below(3), face, c.below(all) as u32, c.below(all) as u32);
            damaged(c, at)
        }
        3..11 => edge_cell(c, good),
        _ => inner_cell(c, good),
    }
}

/// A cell anywhere on a face; now and then one beyond it.
fn inner_cell(c: &mut Chance, level: u32) -> At {
    let all = 3 * u64::from(places::limit(level, false)) + 1;
    let mut at = (0, 0, 0, 0);
    for _ in 0..8 {
        at = along(c.below(3), c.below(20) as u32, c.below(all) as u32, c.below(all) as u32);
        let (s, m) = sum_and_limit(at, level);
        if s <= m {
            break;
        }
    }
    at
}

pub fn some_level(c: &mut Chance) -> u32 {
    if c.below(60) == 0 { 16 + c.below(4) as u32 } else { c.below(16) as u32 }
}

pub fn run_corners(tally: &mut Tally) {
    for level in 0..17 {
        places::each(14, |at| corners(tally, at, level));
    }
    let mut c = Chance(12);
    for _ in 0..11_000_000 {
        let level = some_level(&mut c);
        let at = some_cell(&mut c, level);
        corners(tally, at, level);
    }
}

/// Every start and length, and those one and two too large.
fn all_parts(shape: &Shape) -> impl Iterator<Item = Part> {
    let most = shape.sides + 1;
    (0..=most).flat_map(move |start| (0..=most).map(move |length| (start, length)))
}

/// Mostly the whole boundary, else any part, now and then one that is refused.
pub fn some_part(c: &mut Chance, shape: &Shape) -> Part {
    match c.below(3) {
        0 => (c.below(u64::from(shape.sides) + 1) as u32, c.below(u64::from(shape.sides) + 2) as u32),
        _ => (c.below(u64::from(shape.sides)) as u32, shape.sides),
    }
}

/// Asks of the corners of all faces, of the cells near a face's centre at coarse levels, and of many by chance.
pub fn each(shape: &Shape, chance: u64, many: u64, mut ask: impl FnMut(At, u32, Part)) {
    for level in 0..17 {
        for face in 0..20 {
            for axis in 0..3 {
                let at = pentagon_centre(face, axis, level);
                all_parts(shape).for_each(|part| ask(at, level, part));
            }
        }
    }
    for (level, n) in [(0, 3), (1, 7), (2, 8), (3, 12)] {
        places::each(n, |at| ask(at, level, (0, shape.sides)));
    }
    let mut c = Chance(chance);
    for _ in 0..many {
        let level = some_level(&mut c);
        let at = some_cell(&mut c, level);
        let part = some_part(&mut c, shape);
        ask(at, level, part);
    }
}

fn run(tally: &mut Tally, shape: &Shape, chance: u64, many: u64) {
    let mut crossed = 0;
    each(shape, chance, many, |at, level, part| border(tally, &mut crossed, shape, at, level, part));
    println!("  {crossed} with crossing points");
}

pub fn run_hexagon(tally: &mut Tally) {
    run(tally, &HEXAGON, 13, 8_000_000);
}

pub fn run_pentagon(tally: &mut Tally) {
    run(tally, &PENTAGON, 14, 4_000_000);
}
