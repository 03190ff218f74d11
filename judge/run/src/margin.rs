//! The margin: how far the point with two leftovers was from the border of its hexagon. The Rust has no such function, so it is held
//! bit for bit to its rule over whole numbers, written apart here; to the squared distances of the centres around; and for
//! leftovers of points to the steps that the Rust's hexagon is away, and to the point's distance from that hexagon's border.
use crate::{Tally, chance::Chance, ours, ours::{Left, Said}, round, vectors::{self, Most}};
use h3o::coord::Vec2d;

/// One hexagon, in the 2^51sts that the rule counts.
const ONE: i64 = 1 << 51;

/// The steps from the whole parts to the hexagon, by the source's branches.
fn steps([r1, r2]: Left) -> [i64; 2] {
    let past = r2 >= 1. - r1;
    let (i, j) = if r1 < 1. / 3. {
        (false, r2 >= f64::midpoint(1., r1))
    } else if r1 < 0.5 {
        (past && r2 < 2. * r1, past)
    } else if r1 < 2. / 3. {
        (2. * r1 - 1. >= r2 || past, past)
    } else {
        (true, r2 >= r1 / 2.)
    };
    [i.into(), j.into()]
}

/// The whole 2^51sts of a number from 0 up and below 1, by its bits: it is digits · 2^(power - 1075), and a subnormal has none.
fn parts(r: f64) -> i64 {
    let (power, rest) = (r.to_bits() >> 52 & 0x7ff, r.to_bits() & ((1 << 52) - 1));
    let digits = if power == 0 { 0 } else { 1 << 52 | rest };
    digits.checked_shr(1024 - power as u32).unwrap_or(0) as i64
}

/// 5 for a leftover out of its range, else the distance from the nearest border.
pub fn oracle(left: Left) -> Said<1> {
    if !left.iter().all(|r| (0. ..1.).contains(r)) {
        return Said::refused(5);
    }
    let [i, j] = steps(left);
    let (a, b) = (parts(left[0]) - i * ONE, parts(left[1]) - j * ONE);
    let farthest = (2 * a - b).abs().max((2 * b - a).abs()).max((a + b).abs());
    Said::done([((ONE - farthest) as f64 / (2 * ONE) as f64).to_bits()])
}

fn squared(a: f64, b: f64) -> f64 {
    a * a + b * b - a * b
}

/// The steps to the 18 centres that lie at most two hexagons from a centre.
fn around() -> Vec<Left> {
    let all = (-2..=2).flat_map(|i| (-2..=2).map(move |j| [f64::from(i), f64::from(j)]));
    all.filter(|&[i, j]| (1. ..=4.).contains(&squared(i, j))).collect()
}

/// What was seen of the answers: how many were below zero, and the least; how far they were from what squared distances say; how many
/// were of points, how many of these below zero, and how far they were from the point's distance to the border.
struct Seen {
    around: Vec<Left>,
    below: u64,
    least: f64,
    squares: Most,
    points: u64,
    points_below: u64,
    border: Most,
}

impl Seen {
    fn new() -> Self {
        let around = around();
        assert_eq!(around.len(), 18);
        Self { around, below: 0, least: 0., squares: Most::default(), points: 0, points_below: 0, border: Most::default() }
    }
    /// Half the difference between the squared distances to the nearest other centre and to the own one.
    fn by_squares(&self, left: Left) -> f64 {
        let [i, j] = steps(left);
        let (a, b) = (left[0] - i as f64, left[1] - j as f64);
        let nearest = self.around.iter().map(|[i, j]| squared(a - i, b - j)).fold(f64::INFINITY, f64::min);
        (nearest - squared(a, b)) / 2.
    }
    fn print(&self) {
        let Self { below, least, squares, points, points_below, border, .. } = self;
        println!("  {below} below zero, the least {least:e}; up to {:.1e} from what squared distances say", squares.length);
        print!("  {points} of points, {points_below} of them below zero; ");
        println!("up to {:.1e} from the point's distance to the border, {:.2} of the allowance at most", border.length, border.part);
    }
}

/// Asks for a margin, and gives back what the rule says, a NaN for a refusal.
fn ask(tally: &mut Tally, seen: &mut Seen, left: Left) -> f64 {
    let (theirs, what) = (oracle(left), || format!("margin {:016x} {:016x}", left[0].to_bits(), left[1].to_bits()));
    tally.same(ours::margin(left), theirs, what);
    if theirs.number != 0 {
        return f64::NAN;
    }
    let margin = f64::from_bits(theirs.values[0]);
    seen.below += u64::from(margin < 0.);
    seen.least = seen.least.min(margin);
    tally.also((-2f64.powi(-40)..=0.5).contains(&margin), || format!("{}: {margin:e} is out of range", what()));
    let apart = (seen.by_squares(left) - margin).abs();
    tally.also(seen.squares.note(apart, 1e-12), || format!("{}: squared distances are {apart:e} apart", what()));
    margin
}

/// The leftovers of a point. The source's folds leave points alone that are not below zero: there the hexagon less the whole parts is
/// what the branches chose.
fn ask_point(tally: &mut Tally, seen: &mut Seen, (x, y): (f64, f64)) {
    let (hexagon, left) = round::rounded(Vec2d::new(x, y));
    let margin = ask(tally, seen, left);
    let whole = round::before_folds((x, y)).map(|n| n as i64);
    let (unfolded, _) = round::rounded(Vec2d::new(x.abs(), y.abs()));
    let chosen = [i64::from(unfolded.i()) - whole[0], i64::from(unfolded.j()) - whole[1]];
    tally.also(chosen == steps(left), || format!("margin of {x:?} {y:?}: the Rust steps {chosen:?}"));
    let apart = (margin + vectors::outside((x, y), hexagon)).abs();
    // the roundings of x1 and x2, and of the centre
    let allowed = (1. + x.abs().max(y.abs())) * 4. * f64::EPSILON;
    seen.points += 1;
    seen.points_below += u64::from(margin < 0.);
    tally.also(seen.border.note(apart, allowed), || format!("margin of {x:?} {y:?}: {apart:e} from the distance to the border"));
}

/// Where r2's tests change, for any r1.
pub fn edges(r1: f64) -> [f64; 5] {
    [f64::midpoint(1., r1), 1. - r1, 2. * r1, 2. * r1 - 1., r1 / 2.]
}

/// Numbers at which something changes, the smallest parts that count among them, and such as are no leftovers.
const ODD: [f64; 17] = [
    0., f64::MIN_POSITIVE, f64::EPSILON / 2., f64::EPSILON, 2. * f64::EPSILON, 1. / 6., 0.25, 1. / 3., 0.5, 2. / 3., 0.75, 5. / 6., 1., 2.,
    f64::MAX, f64::INFINITY, f64::NAN,
];

/// A number for 4, and for 0 to 8 the patterns on either side.
pub fn moved(x: f64, by: u64) -> f64 {
    f64::from_bits(x.to_bits().wrapping_add(by).wrapping_sub(4))
}

fn beside(x: f64) -> impl Iterator<Item = f64> {
    (0..9).map(move |by| moved(x, by))
}

/// Odd numbers of both signs with one another, and with the edges of the branches.
fn odd_pairs(tally: &mut Tally, seen: &mut Seen) {
    let odd: Vec<f64> = ODD.into_iter().flat_map(|x| [x, -x]).flat_map(beside).collect();
    for &r1 in &odd {
        for r2 in odd.iter().copied().chain(edges(r1).into_iter().flat_map(beside)) {
            ask(tally, seen, [r1, r2]);
        }
    }
}

/// Any bits, a leftover of any size, a subnormal, one next to where r1's tests change, one of all digits; else an even spread.
pub fn some_leftover(c: &mut Chance) -> f64 {
    match c.below(8) {
        0 => f64::from_bits(c.bits()),
        1 => f64::from_bits(c.below(1f64.to_bits())),
        2 => f64::from_bits(c.below(1 << 52)),
        3 => moved([1. / 3., 0.5, 2. / 3.][c.below(3) as usize], c.below(9)),
        4 | 5 => f64::from_bits((1022 - c.below(4)) << 52 | c.below(1 << 52)),
        _ => c.unit().abs(),
    }
}

pub fn run(tally: &mut Tally) {
    let (mut c, mut seen) = (Chance(51), Seen::new());
    odd_pairs(tally, &mut seen);
    for _ in 0..4_000_000 {
        let point = round::some_point(&mut c);
        if round::oracle(point.0, point.1).number == 0 {
            ask_point(tally, &mut seen, point);
        }
    }
    for _ in 0..3_000_000 {
        ask(tally, &mut seen, [some_leftover(&mut c), some_leftover(&mut c)]);
    }
    for _ in 0..3_000_000 {
        let r1 = some_leftover(&mut c);
        let r2 = moved(edges(r1)[c.below(5) as usize], c.below(9));
        ask(tally, &mut seen, [r1, r2]);
    }
    seen.print();
}
