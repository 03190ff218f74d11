//! Levels and coordinates: raise, grid, reducing and the five maps. The text given has no such functions, so they are held to document
//! 01's rules, written apart here; the maps also to those that the shims of the Rust are made of.
use crate::{Tally, chance::Chance, ours, ours::{Said, Triple}, plane};
use h3o::coord::CoordIJK;

/// Numbers at which something changes, beside the levels themselves.
const FAR: [u32; 6] = [255, 256, 1 << 16, 1 << 31, u32::MAX - 1, u32::MAX];

pub fn run_raise(tally: &mut Tally) {
    for level in (0..1000).chain(FAR) {
        let theirs = match level {
            0..=15 if level.is_multiple_of(2) => Said::done([level.into()]),
            0..=15 => Said::done([u64::from(level) + 1]),
            _ => Said::refused(4),
        };
        tally.same(ours::raise(level), theirs, || format!("raise {level}"));
    }
}

/// The unit scales of document 01, 7^(level/2) for the even levels.
const UNITS: [u64; 9] = [1, 7, 49, 343, 2401, 16807, 117649, 823543, 5764801];

pub fn run_grid(tally: &mut Tally) {
    for level in (0..1000).chain(FAR) {
        for substrate in [false, true] {
            let theirs = if level > 16 || !level.is_multiple_of(2) {
                Said::refused(4)
            } else {
                let unit = UNITS[level as usize / 2] * if substrate { 3 } else { 1 };
                Said::done([unit, 2 * unit, substrate.into()])
            };
            tally.same(ours::grid(level, substrate), theirs, || format!("grid {level} {substrate}"));
        }
    }
}

fn reduced([i, j, k]: [u64; 3]) -> [u64; 3] {
    let least = i.min(j).min(k);
    [i - least, j - least, k - least]
}

fn wide((i, j, k): Triple) -> [u64; 3] {
    [i.into(), j.into(), k.into()]
}

fn any_triple(c: &mut Chance) -> Triple {
    let mut one = || (c.bits() >> 32 >> c.below(33)) as u32;
    (one(), one(), one())
}

/// All triples up to n.
fn each(n: u32, mut ask: impl FnMut(Triple)) {
    for i in 0..=n {
        for j in 0..=n {
            for k in 0..=n {
                ask((i, j, k));
            }
        }
    }
}

pub fn run_reduce(tally: &mut Tally) {
    let mut ask = |at: Triple| tally.same(ours::reduce(at), Said::done(reduced(wide(at))), || format!("reduce {at:?}"));
    each(60, &mut ask);
    let mut c = Chance(21);
    for _ in 0..4_000_000 {
        ask(any_triple(&mut c));
    }
}

/// Where document 01's table sends i, j and k, row by row.
const ROWS: [[[u64; 3]; 3]; 5] = [
    [[1, 1, 0], [0, 1, 1], [1, 0, 1]],
    [[1, 0, 1], [1, 1, 0], [0, 1, 1]],
    [[2, 0, 1], [1, 2, 0], [0, 1, 2]],
    [[2, 1, 0], [0, 2, 1], [1, 0, 2]],
    [[3, 1, 0], [0, 3, 1], [1, 0, 3]],
];

fn oracle_map(number: u32, at: Triple) -> Said<3> {
    if !(1..=5).contains(&number) {
        return Said::refused(5);
    }
    let triple = wide(at);
    if triple.iter().min() != Some(&0) || triple.iter().any(|&n| n > 1 << 26) {
        return Said::refused(10);
    }
    let row = ROWS[number as usize - 1];
    Said::done(reduced(std::array::from_fn(|n| (0..3).map(|from| row[from][n] * triple[from]).sum())))
}

/// The same by the Rust's own methods.
fn rust_map(number: u32, (i, j, k): Triple) -> [u64; 3] {
    let at = CoordIJK::new(i as i32, j as i32, k as i32);
    let to = match number {
        1 => at.rotate60::<true>(),
        2 => at.rotate60::<false>(),
        3 => at.down_aperture3::<true>(),
        4 => at.down_aperture3::<false>(),
        _ => at.down_aperture7::<false>(),
    };
    [to.i() as u64, to.j() as u64, to.k() as u64]
}

fn map(tally: &mut Tally, number: u32, at: Triple) {
    let theirs = oracle_map(number, at);
    tally.same(ours::map(number, at), theirs, || format!("map {number} {at:?}"));
    if theirs.number == 0 {
        tally.also(theirs.values == rust_map(number, at), || format!("map {number} {at:?}: the Rust has another"));
    }
}

pub fn run_map(tally: &mut Tally) {
    for number in (0..8).chain(FAR) {
        each(25, |at| map(tally, number, at));
    }
    let mut c = Chance(22);
    for _ in 0..8_000_000 {
        let number = c.below(7) as u32;
        map(tally, number, plane::some_triple(&mut c));
    }
}
