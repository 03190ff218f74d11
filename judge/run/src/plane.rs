//! Plane points: the centre of a hexagon, `Vec2d::intersection` and the equality of the Rust beside the proved ones, bit for bit.
use crate::{Tally, chance::Chance, ours, ours::Said, round};
use h3o::coord::{CoordIJK, Vec2d};

fn said(v: Vec2d) -> Said<2> {
    Said::done([v.x.to_bits(), v.y.to_bits()])
}

pub fn oracle_centre((i, j, k): (u32, u32, u32)) -> Said<2> {
    let taken = i.min(j).min(k) == 0 && i.max(j).max(k) <= 1 << 26;
    if taken { said(CoordIJK::new(i as i32, j as i32, k as i32).into()) } else { Said::refused(10) }
}

/// A triple up to 2^26 and a little beyond, now and then unreduced.
pub fn some_triple(c: &mut Chance) -> (u32, u32, u32) {
    let (a, b) = (c.below((1 << 26) + 3) as u32, c.below((1 << 26) + 3) as u32 >> c.below(27));
    match c.below(4) {
        0 => (a, b, 0),
        1 => (0, a, b),
        2 => (b, 0, a),
        _ => (a, b, c.below(2) as u32),
    }
}

pub fn run_centre(tally: &mut Tally) {
    let mut c = Chance(7);
    let mut ask = |at: (u32, u32, u32)| tally.same(ours::centre(at), oracle_centre(at), || format!("centre {at:?}"));
    for i in 0..60 {
        for j in 0..60 {
            for k in 0..60 {
                ask((i, j, k));
            }
        }
    }
    for _ in 0..4_000_000 {
        ask(some_triple(&mut c));
    }
}

/// 6 for a number that is none, 13 where the divisor is zero or a result not finite, else what the Rust says.
pub fn oracle_meet(l: &[f64; 8]) -> Said<2> {
    if l.iter().any(|x| !x.is_finite()) {
        return Said::refused(6);
    }
    let (s1, s2) = ((l[2] - l[0], l[3] - l[1]), (l[6] - l[4], l[7] - l[5]));
    let divisor = -s2.0 * s1.1 + s1.0 * s2.1;
    let at = |n: usize| Vec2d::new(l[n], l[n + 1]);
    let met = Vec2d::intersection((at(0), at(2)), (at(4), at(6)));
    if divisor == 0. || !met.x.is_finite() || !met.y.is_finite() {
        return Said::refused(13);
    }
    said(met)
}

/// Numbers that make lines parallel, points of one, or too long.
fn odd_lines(c: &mut Chance) -> [f64; 8] {
    let odd = [0., -0., 1., -1., 0.5, 2., 1e300, -1e300, f64::MIN_POSITIVE, f64::INFINITY, f64::NAN];
    std::array::from_fn(|_| odd[c.below(odd.len() as u64) as usize])
}

fn any_lines(c: &mut Chance) -> [f64; 8] {
    std::array::from_fn(|_| f64::from_bits(c.bits()))
}

/// Lines among the hexagons of some level.
fn grid_lines(c: &mut Chance) -> [f64; 8] {
    let size = f64::from_bits((1023 + c.below(28)) << 52);
    std::array::from_fn(|_| c.unit() * size)
}

/// One pair of lines of the mix that `run_meet` asks.
pub fn some_lines(c: &mut Chance) -> [f64; 8] {
    match c.below(5) {
        0 => odd_lines(c),
        1 => any_lines(c),
        _ => grid_lines(c),
    }
}

pub fn run_meet(tally: &mut Tally) {
    let mut c = Chance(8);
    let mut ask = |l: [f64; 8]| tally.same(ours::meet(&l), oracle_meet(&l), || format!("meet {l:?}"));
    for _ in 0..2_000_000 {
        ask(odd_lines(&mut c));
    }
    for _ in 0..2_000_000 {
        ask(any_lines(&mut c));
    }
    for _ in 0..6_000_000 {
        ask(grid_lines(&mut c));
    }
    for n in [0, 1, 7, 9, 16] {
        tally.same(ours::meet(&vec![1.; n]), Said::refused(2), || format!("meet with {n} doubles"));
    }
}

/// 6 for a number that is none, else the Rust's `==`.
fn oracle_alike(a: (f64, f64), b: (f64, f64)) -> Said<1> {
    if [a.0, a.1, b.0, b.1].iter().any(|x| !x.is_finite()) {
        return Said::refused(6);
    }
    Said::done([u64::from(Vec2d::new(a.0, a.1) == Vec2d::new(b.0, b.1))])
}

/// A number that is the tolerance away from x, by some last bits more or less.
fn a_tolerance_from(c: &mut Chance, x: f64) -> f64 {
    let by = f64::from(f32::EPSILON) * if c.below(2) == 0 { 1. } else { -1. };
    let y = x + if c.below(8) == 0 { by * c.unit() } else { by };
    f64::from_bits(y.to_bits().wrapping_add(c.below(7)).wrapping_sub(3))
}

pub fn run_alike(tally: &mut Tally) {
    let mut c = Chance(23);
    let mut ask = |a, b| tally.same(ours::alike(a, b), oracle_alike(a, b), || format!("alike {a:?} {b:?}"));
    for _ in 0..4_000_000 {
        let (a, b) = (round::some_point(&mut c), round::some_point(&mut c));
        ask(a, b);
        ask(a, a);
    }
    for _ in 0..8_000_000 {
        let size = f64::from_bits((1023 - 30 + c.below(58)) << 52);
        let a = (c.unit() * size, c.unit() * size);
        let b = (a_tolerance_from(&mut c, a.0), if c.below(2) == 0 { a.1 } else { a_tolerance_from(&mut c, a.1) });
        ask(a, b);
    }
}
