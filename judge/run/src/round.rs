//! Rounding a plane point to a hexagon: `From<Vec2d> for CoordIJK` of the Rust beside `heddleplume_round`, and the leftovers that its
//! branches saw, bit for bit.
use crate::{Tally, chance::Chance, ours, ours::{Left, Said}};
use h3o::coord::{CoordIJK, Vec2d};
use h3o::leftovers;

pub const LIMIT: f64 = 33554432.;

/// The source's 1/sin(60°).
const RSIN60: f64 = 1.1547005383792515;

/// Document 01's x1 and x2 of a point: where it lies in the coordinates of hexagons, before the folds.
pub fn before_folds((x, y): (f64, f64)) -> [f64; 2] {
    let x2 = y.abs() * RSIN60;
    [x.abs() + x2 / 2., x2]
}

/// The Rust's hexagon of a point and the leftovers: the copy that notes them must round as the original does.
pub fn rounded(point: Vec2d) -> (CoordIJK, Left) {
    let hexagon = CoordIJK::from(point);
    let (noted, left) = leftovers::rounded(point);
    assert!(noted == hexagon, "{point:?} is {hexagon:?}, but {noted:?} in the copy that notes leftovers");
    (hexagon, left)
}

/// What document 01 says: 6 for a NaN or an infinity, 9 from 2^25 on, else what the Rust says.
pub fn oracle(x: f64, y: f64) -> Said<5> {
    if !x.is_finite() || !y.is_finite() {
        return Said::refused(6);
    }
    if x.abs() >= LIMIT || y.abs() >= LIMIT {
        return Said::refused(9);
    }
    let (c, [r1, r2]) = rounded(Vec2d::new(x, y));
    Said::done([c.i() as u64, c.j() as u64, c.k() as u64, r1.to_bits(), r2.to_bits()])
}

fn ask(tally: &mut Tally, x: f64, y: f64) {
    let (theirs, what) = (oracle(x, y), || format!("round {:016x} {:016x}", x.to_bits(), y.to_bits()));
    tally.same(ours::round(x, y), theirs, what);
    if theirs.number == 0 {
        // from plus zero up to 1 the bits of doubles rise with them, and minus zero's are higher
        tally.also(theirs.values[3..].iter().all(|&bits| bits < 1f64.to_bits()), || format!("{}: a leftover out of range", what()));
    }
}

/// The numbers next to x, and x with the other sign.
fn around(x: f64) -> [f64; 4] {
    [x, -x, f64::from_bits(x.to_bits().wrapping_add(1)), f64::from_bits(x.to_bits().wrapping_sub(1))]
}

/// Numbers at which something changes, and their neighbours.
fn edges() -> Vec<f64> {
    let edges = [
        0., f64::MIN_POSITIVE, f64::from_bits(1), 0.5, 1. / 3., 2. / 3., 0.25, 1., 1.5, 2., LIMIT, LIMIT / 2., LIMIT - 0.5, 1e300,
        f64::MAX, f64::INFINITY, f64::NAN, 0.8660254037844386, 1.7320508075688772, 0.4330127018922193, 0.2886751345948129, 0.5773502691896258,
    ];
    edges.iter().flat_map(|&x| around(x)).collect()
}

/// Half, third and quarter grids: the steps along x and along y.
const GRIDS: [(f64, f64); 3] = [(0.5, 0.4330127018922193), (1. / 6., 0.14433756729740643), (0.25, 0.25)];

fn any_bits(c: &mut Chance) -> (f64, f64) {
    (f64::from_bits(c.bits()), f64::from_bits(c.bits()))
}

/// A point of a size from 2^-30 to 2^27.
fn of_a_size(c: &mut Chance) -> (f64, f64) {
    let size = f64::from_bits((1023 - 30 + c.below(58)) << 52);
    (c.unit() * size, c.unit() * size)
}

fn up_to_the_limit(c: &mut Chance) -> (f64, f64) {
    (c.unit() * LIMIT * 1.01, c.unit() * LIMIT * 1.01)
}

/// One point of the mix that `run` asks.
pub fn some_point(c: &mut Chance) -> (f64, f64) {
    match c.below(8) {
        0 | 1 => {
            let all = edges();
            let mut one = || all[c.below(all.len() as u64) as usize];
            (one(), one())
        }
        2..5 => {
            let (step, rise) = GRIDS[c.below(3) as usize];
            let (a, b) = (c.below(241) as f64 - 120., c.below(241) as f64 - 120.);
            (around(a * step)[c.below(4) as usize], b * rise)
        }
        5 => any_bits(c),
        6 => of_a_size(c),
        _ => up_to_the_limit(c),
    }
}

pub fn run(tally: &mut Tally) {
    let mut chance = Chance(1);
    let all = edges();
    for &x in &all {
        for &y in &all {
            ask(tally, x, y);
        }
    }
    // half and third grids, exactly and one number off
    for a in -120..=120 {
        for b in -120..=120 {
            for (step, rise) in GRIDS {
                for x in around(f64::from(a) * step) {
                    ask(tally, x, f64::from(b) * rise);
                }
            }
        }
    }
    for _ in 0..3_000_000 {
        let (x, y) = any_bits(&mut chance);
        ask(tally, x, y);
    }
    for _ in 0..10_000_000 {
        let (x, y) = of_a_size(&mut chance);
        ask(tally, x, y);
    }
    for _ in 0..5_000_000 {
        let (x, y) = up_to_the_limit(&mut chance);
        ask(tally, x, y);
    }
}
