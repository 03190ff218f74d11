//! Places: turn, step, crossing, settling and direction of the Rust beside the proved ones.
use crate::{Tally, chance::Chance, ours, ours::{At, Said}};
use h3o::coord::{CoordIJK, FaceIJK, Overage};
use h3o::{ExtendedResolution, Face, face};

pub const LARGEST: u32 = 1 << 26;

pub fn limit(level: u32, substrate: bool) -> u32 {
    2 * 7u32.pow(level / 2) * if substrate { 3 } else { 1 }
}

fn coord((_, i, j, k): At) -> CoordIJK {
    CoordIJK::new(i as i32, j as i32, k as i32)
}

pub fn place(at: At) -> FaceIJK {
    FaceIJK::new(Face::new_unchecked(at.0 as usize), coord(at))
}

pub fn numbers(p: FaceIJK) -> [u64; 4] {
    [usize::from(p.face) as u64, p.coord.i() as u64, p.coord.j() as u64, p.coord.k() as u64]
}

pub fn not_reduced((_, i, j, k): At) -> bool {
    i.min(j).min(k) != 0 || i.max(j).max(k) > LARGEST
}

/// Document 01's refusal of a place on a grid, in the order of refusals.
pub fn refusal(at: At, level: Option<u32>, edge: Option<u32>) -> u32 {
    if at.0 > 19 {
        return 3;
    }
    if level.is_some_and(|l| l % 2 == 1 || l > 16) {
        return 4;
    }
    if edge.is_some_and(|e| !(1..=3).contains(&e)) {
        return 5;
    }
    if not_reduced(at) { 10 } else { 0 }
}

fn five([a, b, c, d]: [u64; 4], e: u64) -> [u64; 5] {
    [a, b, c, d, e]
}

fn crossed(p: &mut FaceIJK, level: u32, substrate: bool, turn: bool) -> Overage {
    let level = ExtendedResolution(level as u8);
    if substrate { p.adjust_overage_class2::<true>(level, turn) } else { p.adjust_overage_class2::<false>(level, turn) }
}

pub fn oracle_cross(at: At, level: u32, substrate: bool, turn: bool) -> Said<5> {
    match refusal(at, Some(level), None) {
        0 => {
            let mut p = place(at);
            let answer = crossed(&mut p, level, substrate, turn);
            Said::done(five(numbers(p), answer as u64))
        }
        n => Said::refused(n),
    }
}

fn cross(tally: &mut Tally, at: At, level: u32, substrate: bool, turn: bool) {
    let theirs = oracle_cross(at, level, substrate, turn);
    tally.same(ours::cross(at, level, substrate, turn), theirs, || format!("cross {at:?} {level} {substrate} {turn}"));
}

pub fn oracle_settle(at: At, level: u32, substrate: bool) -> Said<5> {
    match refusal(at, Some(level), None) {
        0 => {
            let (mut p, mut steps) = (place(at), 0);
            loop {
                let before = p;
                let answer = crossed(&mut p, level, substrate, false);
                steps += u64::from(before != p);
                if answer != Overage::NewFace {
                    break;
                }
            }
            if substrate {
                let mut q = place(at);
                q.adjust_pentagon_vertex_overage(ExtendedResolution(level as u8));
                assert!(p == q);
            }
            Said::done(five(numbers(p), steps))
        }
        n => Said::refused(n),
    }
}

fn settle(tally: &mut Tally, at: At, level: u32, substrate: bool) {
    let theirs = oracle_settle(at, level, substrate);
    tally.same(ours::settle(at, level, substrate), theirs, || format!("settle {at:?} {level} {substrate}"));
}

/// The source's step, as it stands inside `adjust_overage_class2` and `pentagon_boundary`.
pub fn stepped(at: At, level: u32, substrate: bool, edge: u32) -> FaceIJK {
    let way = face::NEIGHBORS[at.0 as usize][edge as usize];
    let mut c = coord(at);
    for _ in 0..way.ccw_rot60 {
        c = c.rotate60::<true>();
    }
    let mut by = way.translate;
    by *= limit(level, substrate) as i32 / 2;
    FaceIJK::new(way.face, (c + by).normalize())
}

pub fn oracle_step(at: At, level: u32, substrate: bool, edge: u32) -> Said<4> {
    match refusal(at, Some(level), Some(edge)) {
        0 => Said::done(numbers(stepped(at, level, substrate, edge))),
        n => Said::refused(n),
    }
}

fn step(tally: &mut Tally, at: At, level: u32, substrate: bool, edge: u32) {
    let theirs = oracle_step(at, level, substrate, edge);
    tally.same(ours::step(at, level, substrate, edge), theirs, || format!("step {at:?} {level} {substrate} {edge}"));
}

pub fn oracle_turn(at: At, clockwise: bool) -> Said<4> {
    match refusal(at, None, None) {
        0 => {
            let c = if clockwise { coord(at).rotate60::<false>() } else { coord(at).rotate60::<true>() };
            Said::done(numbers(FaceIJK::new(Face::new_unchecked(at.0 as usize), c)))
        }
        n => Said::refused(n),
    }
}

fn turn(tally: &mut Tally, at: At, clockwise: bool) {
    tally.same(ours::turn(at, clockwise), oracle_turn(at, clockwise), || format!("turn {at:?} {clockwise}"));
}

/// A place of every kind: within a few limits, at s = m - 1, m, m + 1, up to 2^26 and past it, unreduced, bad faces.
pub fn some_place(c: &mut Chance, m: u32) -> At {
    let face = if c.below(50) == 0 { c.below(25) as u32 } else { c.below(20) as u32 };
    let (a, b) = match c.below(8) {
        0 => {
            let s = u64::from(m) + c.below(3) - 1;
            let a = c.below(s + 1);
            (a, s - a)
        }
        1 => (u64::from(LARGEST) + c.below(3) - 1, c.below(4)),
        2 => (c.below(u64::from(LARGEST) + 1), c.below(u64::from(LARGEST) + 1)),
        3 => (c.below(40), c.below(40)),
        _ => (c.below(4 * u64::from(m) + 1), c.below(4 * u64::from(m) + 1)),
    };
    let (a, b) = (a as u32, b as u32);
    let third = if c.below(60) == 0 { c.below(3) as u32 } else { 0 };
    match c.below(3) {
        0 => (face, a, b, third),
        1 => (face, a, third, b),
        _ => (face, third, a, b),
    }
}

pub fn some_level(c: &mut Chance) -> u32 {
    if c.below(40) == 0 { c.below(20) as u32 } else { 2 * c.below(9) as u32 }
}

/// The grid's limit, for a level that may be bad.
pub fn around(level: u32, substrate: bool) -> u32 {
    limit(level.min(16), substrate)
}

/// All reduced places with coordinates up to n, on all faces and some that are none.
pub fn each(n: u32, mut ask: impl FnMut(At)) {
    for f in 0..22 {
        for i in 0..=n {
            for j in 0..=n {
                for k in 0..=n {
                    ask((f, i, j, k));
                }
            }
        }
    }
}

pub fn run_cross(tally: &mut Tally) {
    for (level, n) in [(0, 13), (1, 3), (2, 20), (17, 2)] {
        for substrate in [false, true] {
            for pent in [false, true] {
                each(n, |at| cross(tally, at, level, substrate, pent));
            }
        }
    }
    let mut c = Chance(2);
    for _ in 0..12_000_000 {
        let (level, substrate, pent) = (some_level(&mut c), c.below(2) == 1, c.below(3) == 0);
        let at = some_place(&mut c, around(level, substrate));
        cross(tally, at, level, substrate, pent);
    }
}

/// A place that is not too many steps away: a walk from far off at a coarse level is long.
pub fn some_start(c: &mut Chance, level: u32, substrate: bool, far: u32) -> At {
    let at = some_place(c, around(level, substrate));
    if at.1.max(at.2).max(at.3) > far && refusal(at, Some(level), None) == 0 {
        return (at.0, at.1 % far, at.2 % far, at.3 % far);
    }
    at
}

pub fn run_settle(tally: &mut Tally) {
    for (level, n) in [(0, 20), (2, 25), (3, 2)] {
        for substrate in [false, true] {
            each(n, |at| settle(tally, at, level, substrate));
        }
    }
    let mut c = Chance(3);
    for n in 0..10_000_000u64 {
        let (level, substrate) = (some_level(&mut c), c.below(2) == 1);
        // most stay within some hundred limits
        let far = if n % 100_000 == 0 { LARGEST / 64 } else { around(level, substrate).saturating_mul(300) };
        let at = some_start(&mut c, level, substrate, far);
        settle(tally, at, level, substrate);
    }
}

pub fn run_step(tally: &mut Tally) {
    for (level, n) in [(0, 8), (2, 20), (5, 2)] {
        for substrate in [false, true] {
            for edge in 0..5 {
                each(n, |at| step(tally, at, level, substrate, edge));
            }
        }
    }
    let mut c = Chance(4);
    for _ in 0..10_000_000 {
        let (level, substrate, edge) = (some_level(&mut c), c.below(2) == 1, c.below(5) as u32);
        let at = some_place(&mut c, around(level, substrate));
        step(tally, at, level, substrate, edge);
    }
}

pub fn run_turn(tally: &mut Tally) {
    for clockwise in [false, true] {
        each(30, |at| turn(tally, at, clockwise));
    }
    let mut c = Chance(5);
    for _ in 0..10_000_000 {
        let at = some_place(&mut c, 1000);
        turn(tally, at, c.below(2) == 1);
    }
}

pub fn oracle_direction(from: u32, to: u32) -> Said<1> {
    if from > 19 || to > 19 {
        return Said::refused(3);
    }
    if from == to {
        return Said::done([0]);
    }
    let over = &face::NEIGHBORS[from as usize];
    let found = (1..4).find(|&e| usize::from(over[e].face) == to as usize);
    Said::done([found.unwrap_or(7) as u64])
}

pub fn run_direction(tally: &mut Tally) {
    for from in (0..40).chain([u32::MAX, 1 << 31]) {
        for to in (0..40).chain([u32::MAX, 1 << 31]) {
            tally.same(ours::direction(from, to), oracle_direction(from, to), || format!("direction {from} {to}"));
        }
    }
}
