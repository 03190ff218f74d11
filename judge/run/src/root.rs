//! The square root: the machine's own (`f64::sqrt`, correctly rounded) beside `heddleplume_root`, bit for bit.
use crate::{Tally, chance::Chance, ours, ours::Said};

/// What document 02 says: 6 below 0 or for a number that is none, else the nearest double. Minus zero is not below 0.
pub fn oracle(x: f64) -> Said<1> {
    if x.is_finite() && x >= 0. { Said::done([x.sqrt().to_bits()]) } else { Said::refused(6) }
}

fn ask(tally: &mut Tally, bits: u64) {
    let x = f64::from_bits(bits);
    tally.same(ours::root(x), oracle(x), || format!("root {bits:016x}"));
}

/// A number and the two patterns on either side.
fn around(tally: &mut Tally, x: f64) {
    (0..5).for_each(|by| ask(tally, x.to_bits().wrapping_add(by).wrapping_sub(2)));
}

/// digits · 2^power, for digits of at most 53 places: 0 or an infinity where that is out of reach.
fn scaled(digits: u64, power: i32) -> f64 {
    let half = power / 2;
    digits as f64 * 2f64.powi(half) * 2f64.powi(power - half)
}

/// An even power, so that a square's root keeps its digits.
fn even_power(c: &mut Chance) -> i32 {
    2 * (c.below(1049) as i32 - 537)
}

/// The square of a number of 54 digits, rounded: its root lies near the middle of two doubles.
fn halfway(c: &mut Chance) -> f64 {
    let half = (1 << 53) + 2 * c.below(1 << 52) + 1;
    let square = u128::from(half) * u128::from(half);
    square as f64 * 2f64.powi(-106) * scaled(1, even_power(c))
}

/// An odd h of 54 digits with h·h = c modulo 2^digits, for a c that is 1 modulo 8: bit after bit.
fn odd_root(c: u128, digits: u32) -> u128 {
    let mut h = 1u128;
    for bit in 3..digits {
        if h.wrapping_mul(h).wrapping_sub(c) >> bit & 1 == 1 {
            h += 1 << (bit - 1);
        }
    }
    h % (1 << 54)
}

/// The numbers whose roots lie nearest to the middle of two doubles: a half h with h·h = m·2^power + c for a small c of either
/// sign, so that the root of m·2^power is c/2h from h.
fn hardest(c: &mut Chance) -> Option<f64> {
    let power = 54 + c.below(2) as u32;
    let rest = (8 * i128::from(c.below(1 << 16)) + 1) * if c.below(2) == 0 { 1 } else { -7 };
    let h = odd_root(rest as u128, power);
    let h = [h, (1 << 54) - h, h ^ (1 << 53), (1 << 54) - (h ^ (1 << 53))][c.below(4) as usize];
    let square = (h * h) as i128 - rest;
    let digits = (square >> power) as u64;
    let met = square == i128::from(digits) << power && digits >> 52 == 1;
    met.then(|| scaled(digits, power as i32 - 106 + even_power(c)))
}

/// An exact square, of a root with at most 26 places.
fn square(c: &mut Chance) -> f64 {
    let root = c.below(1 << 26) >> c.below(26);
    scaled(root * root, even_power(c))
}

/// A number of the mix that `run` asks, by its bits.
pub fn some_number(c: &mut Chance) -> f64 {
    match c.below(8) {
        0 => f64::from_bits(c.bits()),
        1 => f64::from_bits(c.below(1 << 52) >> c.below(52)),
        2 => halfway(c),
        3 => hardest(c).unwrap_or(0.25),
        4 => square(c),
        5 => f64::from_bits(c.below(2047) << 52),
        6 => c.unit().abs() * 1e6,
        _ => [0., -0., f64::INFINITY, f64::NEG_INFINITY, f64::NAN, -1., 4., 2., f64::MAX, -f64::MIN_POSITIVE][c.below(10) as usize],
    }
}

/// Powers of two and their neighbours, with both signs; the ends; numbers that are none.
fn edges(tally: &mut Tally) {
    for power in (0..2049).map(|n| n << 52).chain((0..52).map(|n| 1 << n)) {
        for sign in [0, 1 << 63] {
            around(tally, f64::from_bits(sign | power));
        }
    }
    for n in 0..200_000u64 {
        ask(tally, n);
        ask(tally, f64::MAX.to_bits() - n);
        around(tally, n as f64);
    }
}

pub fn run(tally: &mut Tally) {
    edges(tally);
    let (mut c, mut hard) = (Chance(25), 0);
    for _ in 0..4_000_000 {
        ask(tally, c.bits());
        ask(tally, c.bits() >> 1);
    }
    for _ in 0..1_000_000 {
        ask(tally, c.below(1 << 52) >> c.below(52));
        ask(tally, (c.below(2) + 1022) << 52 | c.below(1 << 52));
    }
    for _ in 0..1_000_000 {
        around(tally, halfway(&mut c));
        around(tally, square(&mut c));
    }
    for x in std::iter::repeat_with(|| hardest(&mut c)).take(4_000_000).flatten() {
        hard += 1;
        around(tally, x);
    }
    println!("  {hard} with roots next to the middle of two doubles, and four neighbours each");
}
