//! How far x1 and x2 are rounded: each lies within one part in 2^51 of itself and two units of 2^-1074 of the exact |x| + |y|/√3 or
//! 2·|y|/√3. The root is squared away, and whole numbers have as many digits as it takes, so that no point is left out.
use crate::{Tally, chance::Chance, nearest, ours, round};

/// A whole number, its lowest digits first.
type Wide = [u64; 38];

/// A number from 0 up, in units of 2^-1074.
fn wide(x: f64) -> Wide {
    let (power, rest) = ((x.to_bits() >> 52) as usize, x.to_bits() & ((1 << 52) - 1));
    let (digits, up) = if power == 0 { (rest, 0) } else { (1 << 52 | rest, power - 1) };
    let digits = u128::from(digits) << (up % 64);
    let mut all = [0; 38];
    (all[up / 64], all[up / 64 + 1]) = (digits as u64, (digits >> 64) as u64);
    all
}

fn plus(mut a: Wide, b: Wide) -> Wide {
    let mut carry = false;
    a.iter_mut().zip(b).for_each(|(digit, by)| (*digit, carry) = digit.carrying_add(by, carry));
    a
}

/// The difference, stopping at 0.
fn less(mut a: Wide, b: Wide) -> Wide {
    let mut borrow = false;
    a.iter_mut().zip(b).for_each(|(digit, by)| (*digit, borrow) = digit.borrowing_sub(by, borrow));
    if borrow { [0; 38] } else { a }
}

fn times(mut a: Wide, by: u64) -> Wide {
    let mut carry = 0;
    a.iter_mut().for_each(|digit| (*digit, carry) = digit.carrying_mul(by, carry));
    a
}

fn square(a: Wide) -> Wide {
    let mut sum = [0u64; 38];
    for (n, &by) in a.iter().enumerate().filter(|(_, by)| **by != 0) {
        let mut carry = 0;
        sum[n..].iter_mut().zip(a).for_each(|(digit, other)| (*digit, carry) = other.carrying_mul_add(by, *digit, carry));
    }
    sum
}

fn at_most(a: Wide, b: Wide) -> bool {
    a.iter().rev().le(b.iter().rev())
}

/// The allowance is taken in so many parts.
const PARTS: u64 = 1 << 10;

/// A unit of 2^-1074, in the finer ones of 2^-1135.
const FINE: u64 = 1 << 61;

/// Whether p + √(q/3) lies within so many parts of the allowance of n. n and p are in units of 2^-1074, q in the square of the finer
/// ones, in which all is compared: there a part is the whole number n + 2^52. Numbers stay below 2^1163, so squares fit three times.
fn within(n: Wide, p: Wide, q: Wide, parts: u64) -> bool {
    let allowed = times(plus(n, wide(f64::MIN_POSITIVE)), parts);
    let (n, p) = (times(n, FINE), times(p, FINE));
    let (low, high) = (less(less(n, allowed), p), plus(n, allowed));
    at_most(p, high) && at_most(times(square(low), 3), q) && at_most(q, times(square(less(high, p)), 3))
}

/// Holds x1 and x2 to the law, and raises the parts that were needed so far. What our entry leaves over shows that it has the same two.
fn ask(tally: &mut Tally, needed: &mut [u64; 2], (x, y): (f64, f64)) {
    let said = ours::round(x, y);
    if said.number != 0 {
        return;
    }
    let both = round::before_folds((x, y));
    let left = both.map(|n| (n - n.floor()).to_bits());
    tally.holds(said.values[3..] == left, || format!("x1 and x2 of {x:?} {y:?}: {both:?}, but other leftovers"));
    let root = times(wide(y.abs()), FINE);
    let exact = [(wide(x.abs()), square(root)), ([0; 38], square(times(root, 2)))];
    for ((n, (p, q)), needed) in both.into_iter().zip(exact).zip(needed) {
        let parts = (*needed..=PARTS).find(|&parts| within(wide(n), p, q, parts));
        tally.also(parts.is_some(), || format!("x1 and x2 of {x:?} {y:?}: {n:?} is too far off"));
        *needed = parts.unwrap_or(*needed);
    }
}

/// Numbers of any size up to the limit, and subnormals of any size.
fn some_point(c: &mut Chance) -> (f64, f64) {
    let mut one = || f64::from_bits(if c.below(2) == 0 { c.below(round::LIMIT.to_bits()) } else { c.below(1 << 53) >> c.below(53) });
    (one(), one())
}

pub fn run(tally: &mut Tally) {
    let (mut c, mut needed) = (Chance(63), [0; 2]);
    for _ in 0..1_000_000 {
        ask(tally, &mut needed, some_point(&mut c));
        ask(tally, &mut needed, round::some_point(&mut c));
        ask(tally, &mut needed, nearest::some_point(&mut c));
    }
    let [x1, x2] = needed.map(|parts| parts as f64 / PARTS as f64);
    println!("  x1 is off by at most {x1:.3} of the allowance, x2 by {x2:.3}");
}
