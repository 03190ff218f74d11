//! The chosen hexagon is the nearest: from the leftovers' exact values a² + b² - ab is measured to the centre that our entry answers, and
//! to those around it, in the coordinates before the folds and over whole numbers.
use crate::{Tally, chance::Chance, margin, ours, ours::Vector, round, vectors, vectors::Frame};

/// One hexagon, in the 2^60ths that are counted here. Of leftovers below 2^-8 this may cut digits off, which changes no measure by as
/// much as 2^-55.
const ONE: i128 = 1 << 60;

/// The measure 1.
const SQUARE: i128 = ONE * ONE;

/// What document 02 allows: a measure of 2^-40.
const ALLOWED: i128 = SQUARE >> 40;

/// How far off the chosen centre the others are looked for, along each axis.
const FAR: i128 = 3;

fn measure([a, b]: [i128; 2]) -> i128 {
    a * a + b * b - a * b
}

/// The least measure from the centres around one, the point lying so far from that one.
fn least_around([a, b]: [i128; 2]) -> i128 {
    let steps = (-FAR..=FAR).flat_map(|i| (-FAR..=FAR).map(move |j| [i, j])).filter(|&to| to != [0, 0]);
    steps.map(|[i, j]| measure([a - i * ONE, b - j * ONE])).min().expect("there are centres around")
}

/// The steps from a point's whole parts to a hexagon's centre. Each fold undoes itself, and the last is the first to be undone.
fn steps((x, y): (f64, f64), [i, j, k]: [u64; 3]) -> [i128; 2] {
    let (mut i, mut j) = (i128::from(i) - i128::from(k), i128::from(j) - i128::from(k));
    if y < 0. {
        (i, j) = (i - j, -j);
    }
    if x < 0. {
        i = j - i;
    }
    let [m1, m2] = round::before_folds((x, y)).map(|n| n as i128);
    [i - m1, j - m2]
}

/// What was seen of the answers: how many there were, how many lay within what is allowed of a border, and of how many another centre
/// was nearer; the largest measure from a chosen centre, and by how much the other centres' was smaller at most.
#[derive(Default)]
struct Seen {
    answers: u64,
    at_borders: u64,
    beaten: u64,
    farthest: i128,
    nearer: i128,
}

impl Seen {
    fn print(&self, of: &str) {
        let Self { answers, at_borders, beaten, farthest, nearer } = self;
        let [over, nearer] = [farthest - SQUARE / 3, *nearer].map(|n| n as f64 / SQUARE as f64);
        print!("  {answers} of {of}, {at_borders} of them within 2^-40 of a border: the measure is at most 1/3 {over:+.2e}; ");
        println!("of {beaten} another centre is nearer, by at most {nearer:.2e}");
    }
}

/// Holds to document 02 what was answered for a plane point: the hexagon, and the bits of the leftovers.
fn hold(tally: &mut Tally, seen: &mut Seen, point: (f64, f64), [i, j, k, r1, r2]: [u64; 5]) {
    let steps = steps(point, [i, j, k]);
    if steps.iter().any(|n| !(0..=1).contains(n)) {
        return tally.also(false, || format!("nearest centre of {point:?}: {steps:?} steps from the whole parts"));
    }
    // to multiply by a power of two is exact
    let [r1, r2] = [r1, r2].map(|bits| (f64::from_bits(bits) * ONE as f64) as i128);
    let from = [r1 - steps[0] * ONE, r2 - steps[1] * ONE];
    let (own, other) = (measure(from), least_around(from));
    seen.answers += 1;
    seen.at_borders += u64::from((own - other).abs() <= ALLOWED);
    seen.beaten += u64::from(own > other);
    seen.farthest = seen.farthest.max(own);
    seen.nearer = seen.nearer.max(own - other);
    let right = 3 * own <= SQUARE + 3 * ALLOWED && own <= other + ALLOWED;
    tally.also(right, || format!("nearest centre of {point:?}: {own} from it, {other} from another"));
}

/// The Rust's hexagon and leftovers are the same, so that what holds of ours holds of them.
fn ask_point(tally: &mut Tally, seen: &mut Seen, point: (f64, f64)) {
    let (said, theirs) = (ours::round(point.0, point.1), round::oracle(point.0, point.1));
    tally.same(said, theirs, || format!("nearest centre of {point:?}"));
    if said.number == 0 && theirs.number == 0 {
        hold(tally, seen, point, said.values);
    }
}

/// A place, with the plane point that it was rounded from.
fn ask_place(tally: &mut Tally, seen: &mut Seen, frame: &Frame, v: Vector, level: u32) {
    let (said, rule) = (ours::place(&frame.numbers, v, level), vectors::by_rule(frame, v, level));
    tally.same(said, vectors::said_of(&rule), || format!("nearest centre of {v:?} {level}"));
    if let (0, Ok(rule)) = (said.number, rule) {
        hold(tally, seen, rule.point, std::array::from_fn(|n| said.values[n + 1]));
    }
}

/// A number beside another: by some last digits, or by something of any size.
fn beside(c: &mut Chance, x: f64) -> f64 {
    if c.below(2) == 0 { margin::moved(x, c.below(9)) } else { x + vectors::tiny(c) }
}

/// Leftovers on a line where the branches change, or beside it; where r1 is at a third, several lines meet in a corner.
fn near_a_line(c: &mut Chance) -> ours::Left {
    let third = [1. / 3., 0.5, 2. / 3.][c.below(3) as usize];
    let r1 = if c.below(2) == 0 { beside(c, third) } else { margin::some_leftover(c) };
    let line = margin::edges(r1)[c.below(5) as usize];
    [r1, if c.below(4) == 0 { margin::some_leftover(c) } else { beside(c, line) }]
}

/// One of the first whole numbers, of the last below 2^25, or of any size between.
fn some_whole(c: &mut Chance) -> f64 {
    let whole = match c.below(4) {
        0 => c.below(2),
        1 => (1 << 25) - 1 - c.below(3),
        _ => c.below(1 << 25) >> c.below(26),
    };
    whole as f64
}

/// A point with such leftovers but for some last digits, of either sign.
pub fn some_point(c: &mut Chance) -> (f64, f64) {
    let [r1, r2] = near_a_line(c);
    let x2 = some_whole(c) + r2;
    // x is not below zero, but may lie next to it
    let x1 = (x2 / 2. - r1).ceil().max(0.) + some_whole(c) + r1;
    let mut signed = |size: f64| {
        let size = if c.below(2) == 0 { size } else { margin::moved(size, c.below(9)) };
        if c.below(2) == 0 { size } else { -size }
    };
    (signed(x1 - x2 / 2.), signed(x2 * vectors::SIN60))
}

pub fn run(tally: &mut Tally) {
    let (mut c, mut points, mut places) = (Chance(61), Seen::default(), Seen::default());
    for _ in 0..4_000_000 {
        ask_point(tally, &mut points, round::some_point(&mut c));
    }
    for _ in 0..6_000_000 {
        ask_point(tally, &mut points, some_point(&mut c));
    }
    vectors::each(4_000_000, 62, |frame, v, level| ask_place(tally, &mut places, frame, v, level));
    points.print("points");
    places.print("places");
}
