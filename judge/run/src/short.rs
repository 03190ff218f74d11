//! Lent slices that are too short for the values: each function refuses with 2 and writes nothing. The other inputs would be
//! refused too, with a higher number, or with 1, the only one that is lower.
use crate::{Tally, ours::{Outline, SphereOutline, UNTOUCHED, Vector, bare}};
use h3o::face::FRAME;

/// No place: 3 and 10.
const NOWHERE: (u32, u32, u32, u32) = (20, 1, 1, 1);
const NOTHING: Vector = [f64::NAN; 3];

/// Too short for a hexagon or its leftovers, and for a place or its.
const ROUNDED: [(usize, usize); 9] = [(0, 2), (1, 2), (2, 2), (2, 3), (3, 1), (3, 0), (4, 1), (2, 1), (0, 0)];
const PLACED: [(usize, usize); 10] = [(0, 2), (1, 2), (2, 2), (3, 2), (3, 3), (4, 1), (4, 0), (5, 1), (3, 1), (0, 0)];

fn untouched() -> f64 {
    f64::from_bits(UNTOUCHED.into())
}

/// Calls with every length that is too short.
fn short<T: Copy + PartialEq>(tally: &mut Tally, name: &str, values: usize, before: T, call: impl Fn(&mut [T]) -> u32) {
    for len in 0..values {
        let mut out = vec![before; len];
        let number = call(&mut out);
        tally.holds(number == 2 && out.iter().all(|&x| x == before), || format!("{name} into {len}: {number}"));
    }
}

/// Calls with two slices, of which one or both are too short; both must stay.
fn two(tally: &mut Tally, name: &str, lengths: &[(usize, usize)], wanted: u32, call: impl Fn(&mut [u32], &mut [f64]) -> u32) {
    for &(w, d) in lengths {
        let (mut words, mut doubles) = (vec![UNTOUCHED; w], vec![untouched(); d]);
        let number = call(&mut words, &mut doubles);
        let stay = words.iter().all(|&x| x == UNTOUCHED) && doubles.iter().all(|&x| x == untouched());
        tally.holds(number == wanted && stay, || format!("{name} into {w} and {d}: {number}"));
    }
}

fn places(tally: &mut Tally) {
    let (word, double) = (UNTOUCHED, untouched());
    short(tally, "raise", 1, word, |out| bare::raise(16, out));
    short(tally, "grid", 3, word, |out| bare::grid(17, true, out));
    short(tally, "reduce", 3, word, |out| bare::reduce((1, 1, 1), out));
    short(tally, "map", 3, word, |out| bare::map(0, (1, 1, 1), out));
    short(tally, "alike", 1, word, |out| bare::alike((f64::NAN, 0.), (0., 0.), out));
    short(tally, "plane point", 2, double, |out| bare::plane_point(&FRAME, 20, 16, NOTHING, out));
    two(tally, "round", &ROUNDED, 2, |out, left| bare::round((f64::NAN, 0.), out, left));
    short(tally, "margin", 1, double, |out| bare::margin([f64::NAN, 1.], out));
    short(tally, "centre", 2, double, |out| bare::centre((1, 1, 1), out));
    short(tally, "meet", 2, double, |out| bare::meet(&[f64::NAN; 8], out));
    short(tally, "direction", 1, word, |out| bare::direction(20, 20, out));
    short(tally, "turn", 4, word, |out| bare::turn(NOWHERE, true, out));
    short(tally, "step", 4, word, |out| bare::step(NOWHERE, 17, true, 0, out));
    short(tally, "cross", 5, word, |out| bare::cross(NOWHERE, 17, true, true, out));
    short(tally, "settle", 5, u64::from(word), |out| bare::settle(NOWHERE, 17, true, out));
    short(tally, "same corner", 1, word, |out| bare::same_corner(NOWHERE, NOWHERE, 17, out));
    short(tally, "first name", 4, word, |out| bare::first_name(NOWHERE, 17, out));
    short(tally, "corners", 19, word, |out| bare::corners(NOWHERE, 16, out));
    short(tally, "frame", 180, double, bare::frame);
    short(tally, "root", 1, double, |out| bare::root(-1., out));
    short(tally, "sphere", 3, double, |out| bare::sphere(&FRAME, 20, 17, (f64::NAN, 0.), out));
}

/// Into a list of no rows, and from a list that is none.
fn regions(tally: &mut Tally) {
    let (word, [byte, ..]) = (UNTOUCHED, UNTOUCHED.to_le_bytes());
    short(tally, "region write", 88, byte, |out| bare::region_write(16, &[], out));
    short(tally, "region check", 2, word, |out| bare::region_check(&[], out));
    short(tally, "region record", 4, word, |out| bare::region_record(&[], 0, out));
    short(tally, "region has", 1, word, |out| bare::region_has(&[], NOWHERE, out));
}

fn outline(tally: &mut Tally, name: &str, call: Outline) {
    let lengths = [(0, 24), (24, 24), (25, 23), (25, 0), (24, 23), (0, 0)];
    two(tally, name, &lengths, 2, |marks, points| call(NOWHERE, 16, (9, 9), marks, points));
}

/// The same on the sphere, where a bad frame comes first.
fn globe(tally: &mut Tally, name: &str, call: SphereOutline) {
    let lengths = [(0, 36), (24, 36), (25, 35), (25, 24), (25, 0), (24, 35), (0, 0)];
    for (frame, wanted) in [(&FRAME[..], 2), (&FRAME[1..], 1)] {
        two(tally, name, &lengths, wanted, |marks, points| call(frame, NOWHERE, 16, (9, 9), marks, points));
    }
}

/// A bad frame comes first.
fn framed(tally: &mut Tally) {
    for (frame, wanted) in [(&FRAME[..], 2), (&FRAME[1..], 1)] {
        two(tally, "nearest", &[(0, 1), (1, 0), (0, 0)], wanted, |face, distance| bare::nearest(frame, NOTHING, face, distance));
        two(tally, "place", &PLACED, wanted, |out, left| bare::place(frame, NOTHING, 16, out, left));
        let mut rows = [7; 4];
        let number = bare::batch(frame, 16, &NOTHING, &mut rows, 0, &mut []);
        tally.holds(number == wanted && rows == [7; 4], || format!("batch without room for the count: {number}"));
        let number = bare::plane_point(frame, 20, 16, NOTHING, &mut []);
        tally.holds(number == wanted, || format!("plane point into nothing: {number}"));
        let number = bare::sphere(frame, 20, 17, (f64::NAN, 0.), &mut []);
        tally.holds(number == wanted, || format!("sphere into nothing: {number}"));
    }
}

pub fn run(tally: &mut Tally) {
    places(tally);
    outline(tally, "hexagon", bare::hexagon);
    outline(tally, "pentagon", bare::pentagon);
    globe(tally, "hexagon sphere", bare::hexagon_sphere);
    globe(tally, "pentagon sphere", bare::pentagon_sphere);
    framed(tally);
    regions(tally);
}
