//! Vectors: nearest face, plane point, place and batch. `closest_face` of the Rust has the same operations and must agree by its bits;
//! its projection is trigonometry where document 01 has dot products, so a place may differ near a hexagon's border, by the
//! law in `allowance`, and so may its leftovers. Every answer is also compared with document 01's own formulas, and there nothing may
//! differ.
use crate::{Tally, chance::Chance, ours, ours::{Left, Said, Vector}, places, round};
use h3o::coord::{CoordIJK, FaceIJK, Vec2d, Vec3d};
use h3o::face::FRAME;
use h3o::{Face, Resolution};

const OFF: f64 = 1. / (1u64 << 40) as f64;
/// Faces are compared where the two smallest distances differ by more.
const TIE: f64 = 1. / (1u64 << 47) as f64;
/// What the roundings of either projection may come to at level 0, beside the angle's: 32 times 2^-52.
const ROUNDINGS: f64 = 32. * f64::EPSILON;
pub const SIN60: f64 = 0.8660254037844386;
/// The plane's unit on the tangent plane of a face at level 0.
const UNIT: f64 = 0.3819660112501051;

pub fn dot(a: Vector, b: Vector) -> f64 {
    a[0] * b[0] + (a[1] * b[1] + a[2] * b[2])
}

fn sum(parts: &[(f64, Vector)]) -> Vector {
    std::array::from_fn(|n| parts.iter().map(|(by, v)| by * v[n]).sum())
}

fn unit(v: Vector) -> Vector {
    let length = dot(v, v).sqrt();
    v.map(|x| x / length)
}

fn vec3d([x, y, z]: Vector) -> Vec3d {
    Vec3d::new(x, y, z)
}

pub fn off_sphere(v: Vector) -> bool {
    !(1. - OFF..=1. + OFF).contains(&dot(v, v))
}

/// A frame, and whether document 01 refuses it.
pub struct Frame {
    pub numbers: Vec<f64>,
    pub bad: bool,
    /// Whether it is the one that the Rust's tables are made from.
    pub default: bool,
}

impl Frame {
    pub fn new(numbers: Vec<f64>) -> Self {
        let parts_bad = |f: &[f64]| off_sphere([f[0], f[1], f[2]]) || f[3..].iter().any(|x| x.abs() > 3.);
        let bad = numbers.len() != 180 || numbers.iter().any(|x| !x.is_finite()) || numbers.chunks(9).any(parts_bad);
        Self { numbers, bad, default: false }
    }
    pub fn default() -> Self {
        Self { default: true, ..Self::new(FRAME.clone()) }
    }
    /// 0 for a face's centre, 1 for u, 2 for v.
    pub fn part(&self, face: usize, which: usize) -> Vector {
        let at = 9 * face + 3 * which;
        std::array::from_fn(|n| self.numbers[at + n])
    }
    /// The vector of a point on a face's plane at level 0.
    fn vector(&self, face: usize, x: f64, y: f64) -> Vector {
        let by = UNIT * UNIT;
        unit(sum(&[(1., self.part(face, 0)), (x * by, self.part(face, 1)), (y * by, self.part(face, 2))]))
    }
    /// Document 01's nearest face and its distance, and how much farther the next one is.
    fn nearest(&self, v: Vector) -> (usize, f64, f64) {
        let distance = |face: usize| {
            let c = self.part(face, 0);
            let d = std::array::from_fn(|n| v[n] - c[n]);
            dot(d, d)
        };
        let (mut best, mut second) = ((0, distance(0)), f64::INFINITY);
        for face in 1..20 {
            let d = distance(face);
            if d < best.1 {
                second = best.1;
                best = (face, d);
            } else {
                second = second.min(d);
            }
        }
        (best.0, best.1, second - best.1)
    }
    /// Document 01's projection, or 8.
    fn point(&self, face: usize, v: Vector, level: u32) -> Result<(f64, f64), u32> {
        let depth = dot(v, self.part(face, 0));
        if depth < 0.5 {
            return Err(8);
        }
        let (x, y) = (dot(v, self.part(face, 1)) / depth, dot(v, self.part(face, 2)) / depth);
        let power = 7f64.powi(level as i32 / 2);
        Ok(if level.is_multiple_of(2) { (x * power, y * power) } else { (power * (2.5 * x + SIN60 * y), power * (2.5 * y - SIN60 * x)) })
    }
}

fn vector_refusal(v: Vector) -> u32 {
    if v.iter().any(|x| !x.is_finite()) {
        6
    } else if off_sphere(v) {
        7
    } else {
        0
    }
}

/// Document 01's refusal of a vector with a frame, in the order of refusals.
fn refusal(frame: &Frame, level: u32, v: Vector) -> u32 {
    if frame.bad {
        1
    } else if level > 15 {
        4
    } else {
        vector_refusal(v)
    }
}

/// A place that is answered by document 01's formulas, with the plane point it was rounded from and what was left over.
pub struct ByRule {
    face: usize,
    gap: f64,
    pub point: (f64, f64),
    coord: CoordIJK,
    left: Left,
}

impl ByRule {
    fn new(frame: &Frame, v: Vector, level: u32) -> Result<Self, u32> {
        let (face, _, gap) = frame.nearest(v);
        let point = frame.point(face, v, level)?;
        if point.0.abs().max(point.1.abs()) >= (1 << 25) as f64 {
            return Err(9);
        }
        let (coord, left) = round::rounded(Vec2d::new(point.0, point.1));
        Ok(Self { face, gap, point, coord, left })
    }
    /// The place, and the bits of the leftovers.
    fn said(&self) -> Said<6> {
        let [f, i, j, k] = places::numbers(FaceIJK::new(Face::new_unchecked(self.face), self.coord));
        Said::done([f, i, j, k, self.left[0].to_bits(), self.left[1].to_bits()])
    }
}

/// How far a vector's dot product with itself is from 1.
fn off_by(v: Vector) -> f64 {
    (dot(v, v) - 1.).abs()
}

/// How far the plane points of the two sides may lie apart, in hexagons. The Rust finds the angle r from the face's centre as
/// acos(1 - d/2); rounding 1 - d/2 changes the cosine by e = 2^-54, taken twice here, and a vector off the sphere changes it
/// too. As acos is flat at 1, that moves r by at most 2e/r, and by at most √(2e).
fn allowance(v: Vector, level: u32, point: (f64, f64)) -> f64 {
    let size = 7f64.powf(f64::from(level) / 2.);
    let tan = point.0.hypot(point.1) / size * UNIT;
    let r = tan.atan();
    let e = f64::EPSILON / 2. + off_by(v) / 2. * (1. - r.cos());
    size * (ROUNDINGS + (1. + tan * tan) / UNIT * (2. * e / r).min((2. * e).sqrt()))
}

/// How far from the border of a hexagon a place may differ: no border is nearer to the face's centre than half a hexagon,
/// so 1/r is at most 7^(level/2) times a constant.
fn border_allowance(v: Vector, level: u32) -> f64 {
    let size = 7f64.powf(f64::from(level) / 2.);
    size * (ROUNDINGS + off_by(v)) + size * size * f64::EPSILON * 8.
}

/// How far the leftovers of the two sides may lie apart: on the way from one plane point to the other x1 and x2 change by at most 2/√3
/// of it, and on the nearest face their own roundings come to less than 2^-50 at level 0, both sides' together.
fn left_allowance(level: u32, apart: f64) -> f64 {
    apart / SIN60 + 7f64.powf(f64::from(level) / 2.) * 4. * f64::EPSILON
}

/// How far leftovers lie apart, the shorter way round: from just below 1 the next is 0.
fn left_apart(a: Left, b: Left) -> f64 {
    let way = |n: usize| (a[n] - b[n]).abs();
    (0..2).map(|n| way(n).min(1. - way(n))).fold(0., f64::max)
}

/// How far a point lies outside a hexagon: below zero for one inside.
pub fn outside((x, y): (f64, f64), hexagon: CoordIJK) -> f64 {
    let centre = Vec2d::from(hexagon);
    let (x, y) = (x - centre.x, y - centre.y);
    let farthest = [x, x / 2. + y * SIN60, x / 2. - y * SIN60].iter().fold(0f64, |most, d| most.max(d.abs()));
    farthest - 0.5
}

/// The largest length seen, and the largest part of its allowance.
#[derive(Clone, Copy, Default)]
pub struct Most {
    pub length: f64,
    pub part: f64,
}

impl Most {
    pub fn note(&mut self, length: f64, allowed: f64) -> bool {
        self.length = self.length.max(length);
        self.part = self.part.max(length / allowed);
        length <= allowed
    }
}

/// What was seen of one level: how many places differ, how far the point was from the Rust's hexagon and the largest margin there;
/// how far apart the plane points and the leftovers of all places were.
#[derive(Clone, Copy, Default)]
struct Level {
    compared: u64,
    differed: u64,
    border: Most,
    margin: f64,
    apart: Most,
    left: Most,
}

fn table(levels: &[Level; 16]) {
    print!("  | level | compared with the Rust | places differ | farthest from the border (of the allowance) | largest margin there ");
    println!("| plane points apart (of the allowance) | leftovers apart (of the allowance) |");
    println!("  |---|---|---|---|---|---|---|");
    for (n, Level { compared, differed, border, margin, apart, left }) in levels.iter().enumerate() {
        let [border, apart, left] = [border, apart, left].map(|m| format!("{:.1e} ({:.2})", m.length, m.part));
        println!("  | {n} | {compared} | {differed} | {border} | {margin:.1e} | {apart} | {left} |");
    }
}

/// A place that is another than the Rust's: the point lies near the border of the Rust's hexagon, and its margin tells so.
fn differs(tally: &mut Tally, seen: &mut Level, v: Vector, level: u32, rule: &ByRule, theirs: CoordIJK) {
    let beyond = outside(rule.point, theirs);
    seen.differed += 1;
    tally.also(seen.border.note(beyond, border_allowance(v, level)), || format!("place {v:?} {level}: {beyond:e} from the border"));
    let margin = f64::from_bits(ours::margin(rule.left).values[0]);
    seen.margin = seen.margin.max(margin);
    let most = beyond + 7f64.powf(f64::from(level) / 2.) * ROUNDINGS;
    tally.also(margin <= most, || format!("place {v:?} {level}: {beyond:e} from the border with a margin of {margin:e}"));
}

/// The Rust beside document 01's formulas: the same face, plane points within the allowance, leftovers not farther apart than these
/// let them, and the same hexagon or one whose border is that near.
fn beside_rust(tally: &mut Tally, seen: &mut Level, v: Vector, level: u32, rule: &ByRule) {
    let resolution = Resolution(level as u8);
    let theirs = FaceIJK::from_vec3d(vec3d(v), resolution);
    if usize::from(theirs.face) != rule.face {
        tally.also(rule.gap <= TIE, || format!("place {v:?} {level}: another face"));
        return;
    }
    let (face, distance) = vec3d(v).closest_face();
    let point = Vec2d::from_vec3d(vec3d(v), resolution, face, distance);
    let apart = (point.x - rule.point.0).hypot(point.y - rule.point.1);
    seen.compared += 1;
    tally.also(seen.apart.note(apart, allowance(v, level, rule.point)), || format!("place {v:?} {level}: {apart:e} apart"));
    let (rounded, left) = round::rounded(point);
    tally.also(rounded == theirs.coord, || format!("place {v:?} {level}: the Rust's plane point is in another hexagon than its place"));
    let far = left_apart(left, rule.left);
    tally.also(seen.left.note(far, left_allowance(level, apart)), || format!("place {v:?} {level}: leftovers {far:e} apart"));
    if theirs.coord != rule.coord {
        differs(tally, seen, v, level, rule, theirs.coord);
    }
}

/// Document 01's place, or its refusal.
pub fn by_rule(frame: &Frame, v: Vector, level: u32) -> Result<ByRule, u32> {
    match refusal(frame, level, v) {
        0 => ByRule::new(frame, v, level),
        n => Err(n),
    }
}

pub fn said_of(rule: &Result<ByRule, u32>) -> Said<6> {
    rule.as_ref().map_or_else(|&n| Said::refused(n), ByRule::said)
}

/// The place by document 01 with the default frame, unless the Rust has another; the leftovers are those of document 01's point.
pub fn agreed_place(frame: &Frame, v: Vector, level: u32) -> Option<Said<6>> {
    let said = said_of(&by_rule(frame, v, level));
    let rust = || places::numbers(FaceIJK::from_vec3d(vec3d(v), Resolution(level as u8)));
    (said.number != 0 || said.values[..4] == rust()).then_some(said)
}

/// The hexagon and the leftovers by our own plane point on a face and our own rounding of it.
fn in_two_steps(frame: &Frame, face: u32, level: u32, v: Vector) -> Said<5> {
    let [x, y] = ours::plane_point(&frame.numbers, face, level, v).values.map(f64::from_bits);
    ours::round(x, y)
}

fn place(tally: &mut Tally, seen: &mut [Level; 16], frame: &Frame, v: Vector, level: u32) {
    let (rule, said) = (by_rule(frame, v, level), ours::place(&frame.numbers, v, level));
    tally.same(said, said_of(&rule), || format!("place {v:?} {level}"));
    if said.number == 0 {
        let steps = in_two_steps(frame, said.values[0] as u32, level, v);
        tally.also(steps.number == 0 && said.values[1..] == steps.values, || format!("place {v:?} {level}: in two steps {steps:?}"));
    }
    if let (true, Ok(rule)) = (frame.default, rule) {
        beside_rust(tally, &mut seen[level as usize], v, level, &rule);
    }
}

/// Document 01's nearest face and its distance, or its refusal; and how much farther the next face is.
fn nearest_by_rule(frame: &Frame, v: Vector) -> (Said<2>, f64) {
    match refusal(frame, 0, v) {
        0 => {
            let (face, distance, gap) = frame.nearest(v);
            (Said::done([face as u64, distance.to_bits()]), gap)
        }
        n => (Said::refused(n), 0.),
    }
}

fn rust_nearest(v: Vector) -> Said<2> {
    let (face, distance) = vec3d(v).closest_face();
    Said::done([usize::from(face) as u64, distance.to_bits()])
}

/// The nearest face by document 01 with the default frame, unless the Rust has another.
pub fn agreed_nearest(frame: &Frame, v: Vector) -> Option<Said<2>> {
    let (said, _) = nearest_by_rule(frame, v);
    (said.number != 0 || said == rust_nearest(v)).then_some(said)
}

fn nearest(tally: &mut Tally, near_ties: &mut [u64; 2], frame: &Frame, v: Vector) {
    let (theirs, gap) = nearest_by_rule(frame, v);
    if theirs.number == 0 && frame.default {
        let equal = theirs == rust_nearest(v);
        near_ties[0] += u64::from(gap <= TIE);
        near_ties[1] += u64::from(gap <= TIE && !equal);
        tally.also(equal || gap <= TIE, || format!("closest_face {v:?}"));
    }
    tally.same(ours::nearest(&frame.numbers, v), theirs, || format!("nearest {v:?}"));
}

pub fn uniform(c: &mut Chance) -> Vector {
    loop {
        let v = [c.unit(), c.unit(), c.unit()];
        if (0.01..=1.).contains(&dot(v, v)) {
            return unit(v);
        }
    }
}

/// A number of any size from 2^-60 to 1, of either sign.
pub fn tiny(c: &mut Chance) -> f64 {
    c.unit() * f64::from_bits((1023 - c.below(60)) << 52)
}

/// A point on the border of a hexagon of a level, or a little beside it.
fn border_point(c: &mut Chance, frame: &Frame, level: u32) -> Vector {
    let far = 2.2 * 7f64.powf(f64::from(level) / 2.);
    // some lie near the face's centre, where the Rust's angle is worst
    let far = if c.below(3) == 0 { tiny(c) * far } else { far };
    let centre = Vec2d::from(CoordIJK::from(Vec2d::new(c.unit() * far, c.unit() * far)));
    let (sin, cos) = (c.below(6) as f64 * std::f64::consts::FRAC_PI_3).sin_cos();
    let (out, side) = (0.5 + if c.below(2) == 0 { 0. } else { tiny(c) * 1e-3 }, c.unit() * 0.28);
    let (x, y) = (centre.x + out * cos - side * sin, centre.y + out * sin + side * cos);
    let power = 7f64.powi(level as i32 / 2);
    let face = c.below(20) as usize;
    if level.is_multiple_of(2) {
        return frame.vector(face, x / power, y / power);
    }
    frame.vector(face, (2.5 * x - SIN60 * y) / (7. * power), (2.5 * y + SIN60 * x) / (7. * power))
}

/// The corners of a face, and points of its edges.
fn edge_point(c: &mut Chance, frame: &Frame) -> Vector {
    let corners = [(2., 0.), (-1., 2. * SIN60), (-1., -2. * SIN60)];
    let (a, b) = (c.below(3) as usize, c.below(3) as usize);
    let t = if c.below(2) == 0 { 0. } else { c.unit().abs() };
    let (x, y) = (corners[a].0 + t * (corners[b].0 - corners[a].0), corners[a].1 + t * (corners[b].1 - corners[a].1));
    let off = if c.below(4) == 0 { (0., 0.) } else { (tiny(c), tiny(c)) };
    frame.vector(c.below(20) as usize, x + off.0, y + off.1)
}

fn near_centre(c: &mut Chance, frame: &Frame) -> Vector {
    let face = c.below(20) as usize;
    if c.below(100) == 0 {
        return frame.part(face, 0);
    }
    frame.vector(face, tiny(c), tiny(c))
}

/// A vector whose dot product with itself lies near an end of the range, by some last bits on either side.
fn near_the_end(c: &mut Chance, v: Vector) -> Vector {
    let end = if c.below(2) == 0 { 1. + OFF } else { 1. - OFF };
    let by = end.sqrt();
    let mut v = v.map(|x| x * by);
    let n = c.below(3) as usize;
    v[n] = f64::from_bits(v[n].to_bits().wrapping_add(c.below(9)).wrapping_sub(4));
    v
}

fn damaged(c: &mut Chance, mut v: Vector) -> Vector {
    let odd = [f64::NAN, f64::INFINITY, f64::NEG_INFINITY, 0., -0., f64::from_bits(1), -f64::MIN_POSITIVE, 1., -1., 2., 1e200, f64::MAX];
    for x in &mut v {
        if c.below(2) == 0 {
            *x = odd[c.below(odd.len() as u64) as usize];
        }
    }
    v
}

/// Vectors on an axis or a plane of two axes, with zeros of both signs and subnormals.
fn with_zeros(c: &mut Chance) -> Vector {
    let small = [0., -0., f64::from_bits(1), -f64::from_bits(1), f64::MIN_POSITIVE, 1e-300];
    let (n, m) = (c.below(3) as usize, c.below(3) as usize);
    let mut v: Vector = std::array::from_fn(|_| small[c.below(6) as usize]);
    let (sin, cos) = (c.unit() * 4.).sin_cos();
    v[n] = if n == m { sin.signum() } else { sin };
    if n != m {
        v[m] = cos;
    }
    v
}

pub fn some_vector(c: &mut Chance, frame: &Frame, level: u32) -> Vector {
    match c.below(16) {
        0..4 => uniform(c),
        4 | 5 => edge_point(c, frame),
        6 | 7 => near_centre(c, frame),
        8..12 => border_point(c, frame, level),
        12 => {
            let v = if c.below(2) == 0 { uniform(c) } else { near_centre(c, frame) };
            near_the_end(c, v)
        }
        13 => {
            // off the sphere, but by no more than is taken
            let (v, by) = (if c.below(2) == 0 { border_point(c, frame, level) } else { near_centre(c, frame) }, 1. + c.unit() * OFF / 2.1);
            v.map(|x| x * by)
        }
        14 => with_zeros(c),
        _ => {
            let v = uniform(c);
            damaged(c, v)
        }
    }
}

/// Frames that document 01 refuses, and some with other numbers that it takes.
pub fn other_frames() -> Vec<Frame> {
    let good = FRAME.clone();
    let mut all: Vec<Vec<f64>> = vec![vec![], good[..179].to_vec(), [&good[..], &[0.]].concat(), [&good[..], &good[..]].concat()];
    let mut with = |at: usize, x: f64| {
        let mut f = good.clone();
        f[at] = x;
        all.push(f);
    };
    for at in [0, 2, 3, 8, 9, 100, 171, 179] {
        for x in [f64::NAN, f64::INFINITY, f64::NEG_INFINITY, 3., -3., 3.0000000000000004, -3.0000000000000004, 0., -0., 1e300] {
            with(at, x);
        }
    }
    for by in [1. + OFF / 2., 1. - OFF / 2., 1. + OFF / 1.999, 1. - OFF / 1.999, 1. + OFF / 4.] {
        for face in [0, 7, 19] {
            let mut f = good.clone();
            f[9 * face..9 * face + 3].iter_mut().for_each(|x| *x *= by);
            all.push(f);
        }
    }
    // all faces alike: vectors on the other side are behind, and ties go to the lowest face
    all.push(good[..9].repeat(20));
    let mut last = good[9..18].repeat(20);
    last[171..].copy_from_slice(&good[..9]);
    all.push(last);
    all.into_iter().map(Frame::new).collect()
}

pub fn some_level(c: &mut Chance) -> u32 {
    if c.below(200) == 0 { 16 + c.below(4) as u32 } else { c.below(16) as u32 }
}

/// Asks about the default frame, and now and then about another.
pub fn each(many: u64, chance: u64, mut ask: impl FnMut(&Frame, Vector, u32)) {
    let (frame, others) = (Frame::default(), other_frames());
    let mut c = Chance(chance);
    for n in 0..many {
        let level = some_level(&mut c);
        let v = some_vector(&mut c, &frame, level);
        ask(if n % 20 == 0 { &others[c.below(others.len() as u64) as usize] } else { &frame }, v, level);
    }
    for other in &others {
        for level in 0..18 {
            ask(other, uniform(&mut c), level);
        }
    }
}

pub fn run_nearest(tally: &mut Tally) {
    let mut near_ties = [0; 2];
    each(8_000_000, 15, |frame, v, _| nearest(tally, &mut near_ties, frame, v));
    println!("  {} within 2^-47 of a tie, {} of them differ from the Rust", near_ties[0], near_ties[1]);
}

pub fn run_place(tally: &mut Tally) {
    let mut seen = [Level::default(); 16];
    each(16_000_000, 16, |frame, v, level| place(tally, &mut seen, frame, v, level));
    table(&seen);
}

/// Document 01's plane point on a named face, or its refusal, in the order of refusals.
fn plane_by_rule(frame: &Frame, face: u32, level: u32, v: Vector) -> Result<(f64, f64), u32> {
    match refusal(frame, level, v) {
        1 => Err(1),
        _ if face > 19 => Err(3),
        0 => frame.point(face as usize, v, level),
        n => Err(n),
    }
}

/// The Rust's plane point on a face, from its squared distance.
fn rust_point(frame: &Frame, face: usize, level: u32, v: Vector) -> Vec2d {
    let centre = frame.part(face, 0);
    let d = std::array::from_fn(|n| v[n] - centre[n]);
    Vec2d::from_vec3d(vec3d(v), Resolution(level as u8), Face::new_unchecked(face), dot(d, d))
}

fn plane_point(tally: &mut Tally, apart: &mut Most, frame: &Frame, face: u32, level: u32, v: Vector) {
    let rule = plane_by_rule(frame, face, level, v);
    let theirs = rule.map_or_else(Said::refused, |(x, y)| Said::done([x.to_bits(), y.to_bits()]));
    tally.same(ours::plane_point(&frame.numbers, face, level, v), theirs, || format!("plane point {face} {level} {v:?}"));
    if let (true, Ok(point)) = (frame.default, rule) {
        let rust = rust_point(frame, face as usize, level, v);
        let far = (rust.x - point.0).hypot(rust.y - point.1);
        tally.also(apart.note(far, allowance(v, level, point)), || format!("plane point {face} {level} {v:?}: {far:e} apart"));
    }
}

/// The nearest face mostly, else any, and some that are none.
fn some_face(c: &mut Chance, frame: &Frame, v: Vector) -> u32 {
    match c.below(4) {
        0 => c.below(22) as u32,
        1 => [20, 255, 256, u32::MAX][c.below(4) as usize],
        _ if frame.bad => c.below(20) as u32,
        _ => frame.nearest(v).0 as u32,
    }
}

pub fn run_plane_point(tally: &mut Tally) {
    let (mut c, mut apart) = (Chance(24), Most::default());
    each(8_000_000, 16, |frame, v, level| plane_point(tally, &mut apart, frame, some_face(&mut c, frame, v), level, v));
    println!("  the Rust's plane points lie up to {:.1e} away, {:.2} of the allowance at most", apart.length, apart.part);
}

/// What stands in rows before a batch.
const ROW: i32 = 0x5eed;

/// Document 01's refusal of a whole batch.
fn batch_refusal(frame: &Frame, level: u32, input: usize, out: usize, first: usize) -> u32 {
    if frame.bad {
        1
    } else if !input.is_multiple_of(3) || !out.is_multiple_of(4) || first as u128 + (input / 3) as u128 > (out / 4) as u128 {
        2
    } else if level > 15 {
        4
    } else {
        0
    }
}

/// The four numbers of a row: what `place` says of its vector, without the leftovers.
fn row(frame: &Frame, v: &[f64], level: u32) -> [i32; 4] {
    let said = ours::place(&frame.numbers, [v[0], v[1], v[2]], level);
    if said.number == 0 { std::array::from_fn(|n| said.values[n] as i32) } else { [-(said.number as i32), 0, 0, 0] }
}

/// Compares a batch row by row with `place`; every row counts as a question.
fn batch(tally: &mut Tally, frame: &Frame, level: u32, input: &[f64], out_len: usize, first: usize) {
    let (mut out, mut wanted) = (vec![ROW; out_len], vec![ROW; out_len]);
    let theirs = match batch_refusal(frame, level, input.len(), out_len, first) {
        0 => {
            let mut refused = 0;
            for (v, into) in input.chunks(3).zip(wanted[4 * first.min(out_len / 4)..].chunks_mut(4)) {
                into.copy_from_slice(&row(frame, v, level));
                refused += u64::from(into[0] < 0);
            }
            Said::done([refused])
        }
        n => Said::refused(n),
    };
    let said = ours::batch(&frame.numbers, level, input, &mut out, first);
    let what = || format!("batch at level {level} of {} into {out_len} from row {first}", input.len());
    tally.same(said, theirs, what);
    let rows = out.chunks(4).zip(wanted.chunks(4));
    rows.for_each(|(a, b)| tally.holds(a == b, || format!("{}: {a:?} for {b:?}", what())));
}

/// What a batch is asked with.
struct Asked {
    frame: usize,
    level: u32,
    input: Vec<f64>,
    out_len: usize,
    first: usize,
}

/// A batch with room before and behind its rows, and now and then with lengths or a first row that do not fit.
fn some_batch(c: &mut Chance, frames: &[Frame]) -> Asked {
    let level = some_level(c);
    let (n, before, behind) = (c.below(30) as usize, c.below(4) as usize, c.below(4) as usize);
    let mut input: Vec<f64> = (0..n).flat_map(|_| some_vector(c, &frames[0], level)).collect();
    let (mut out_len, mut first) = (4 * (before + n + behind), before);
    match c.below(40) {
        0 => input.push(0.5),
        1 => input.extend([1., 0.]),
        2 => out_len += 1 + c.below(3) as usize,
        3 => first = before + behind + 1 + c.below(3) as usize,
        4 => first = [usize::MAX, usize::MAX - n, usize::MAX / 4 + 1, 1 << 62][c.below(4) as usize],
        5 => out_len = 0,
        _ => {}
    }
    let frame = if c.below(20) == 0 { c.below(frames.len() as u64) as usize } else { 0 };
    Asked { frame, level, input, out_len, first }
}

pub fn run_batch(tally: &mut Tally) {
    let frames: Vec<Frame> = std::iter::once(Frame::default()).chain(other_frames()).collect();
    let mut c = Chance(17);
    for _ in 0..300_000 {
        let a = some_batch(&mut c, &frames);
        batch(tally, &frames[a.frame], a.level, &a.input, a.out_len, a.first);
    }
    for first in 0..4 {
        for out_len in [0, 4, 8] {
            batch(tally, &frames[0], 9, &[], out_len, first);
        }
    }
}

/// The default frame is the one that the Rust's tables are made from, number by number.
pub fn run_frame(tally: &mut Tally) {
    tally.same(ours::frame(), Said::done(std::array::from_fn(|n| FRAME[n].to_bits())), || "frame".into());
}
