//! What the lent memory holds after each call: nothing new after a refusal, nothing new past an answer. Every refusal that a C function
//! can give is asked for here; none is known that gets 13 for a border.
use super::*;

const NAN3: [f64; 3] = [f64::NAN; 3];
const X: [f64; 3] = [1.0, 0.0, 0.0];
const LONG: [f64; 3] = [1.0, 1.0, 0.0];
/// Face 20; coordinates that are not reduced; a good place.
const FACE: Four = [20, 1, 0, 0];
const UNREDUCED: Four = [0, 1, 1, 1];
const GOOD: Four = [0, 1, 0, 0];
const OLD: u32 = 99;
const OLD_DOUBLE: f64 = -7.5;

fn default_frame() -> [f64; 180] {
    let mut out = [0.0; 180];
    assert_eq!(frame(&mut out), 0);
    out
}

/// Twenty faces that all look at the sky: a frame that passes its test, and has vectors behind every face.
fn one_sided_frame() -> [f64; 180] {
    let face = [0.0, 0.0, 1.0, 1.0, 0.0, 0.0, 0.0, 1.0, 0.0];
    std::array::from_fn(|n| face[n % 9])
}

/// Lends `lent` numbers and expects this refusal, and the numbers as they were.
fn refused(number: u32, lent: usize, ask: impl Fn(&mut [u32]) -> u32) {
    let mut out = vec![OLD; lent];
    assert_eq!(ask(&mut out), number);
    assert!(out.iter().all(|&n| n == OLD), "a refusal {number} wrote");
}

fn refused_doubles(number: u32, lent: usize, ask: impl Fn(&mut [f64]) -> u32) {
    let mut out = vec![OLD_DOUBLE; lent];
    assert_eq!(ask(&mut out), number);
    assert!(out.iter().all(|&n| n == OLD_DOUBLE), "a refusal {number} wrote");
}

/// The same where numbers and doubles are lent.
fn refused_both(number: u32, (numbers, doubles): (usize, usize), ask: impl Fn(&mut [u32], &mut [f64]) -> u32) {
    let (mut out, mut left) = (vec![OLD; numbers], vec![OLD_DOUBLE; doubles]);
    assert_eq!(ask(&mut out, &mut left), number);
    assert!(out.iter().all(|&n| n == OLD) && left.iter().all(|&n| n == OLD_DOUBLE), "a refusal {number} wrote");
}

/// Lends two more than needed and expects these values, and past them the numbers as they were.
fn answers(values: &[u32], ask: impl Fn(&mut [u32]) -> u32) {
    let mut out = vec![OLD; values.len() + 2];
    assert_eq!(ask(&mut out), 0);
    assert_eq!(out, [values, &[OLD, OLD]].concat());
}

fn answers_doubles(values: &[f64], ask: impl Fn(&mut [f64]) -> u32) {
    let mut out = vec![OLD_DOUBLE; values.len() + 2];
    assert_eq!(ask(&mut out), 0);
    assert_eq!(out, [values, &[OLD_DOUBLE, OLD_DOUBLE]].concat());
}

/// The same of numbers and doubles, of which the bits are compared: plus zero is not minus zero.
fn answers_both(values: &[u32], doubles: &[f64], ask: impl Fn(&mut [u32], &mut [f64]) -> u32) {
    let (mut out, mut left) = (vec![OLD; values.len() + 2], vec![OLD_DOUBLE; doubles.len() + 2]);
    assert_eq!(ask(&mut out, &mut left), 0);
    let bits = |doubles: &[f64]| doubles.iter().map(|double| double.to_bits()).collect::<Vec<_>>();
    assert_eq!(out, [values, &[OLD, OLD]].concat());
    assert_eq!(bits(&left), bits(&[doubles, &[OLD_DOUBLE, OLD_DOUBLE]].concat()));
}

#[test]
fn frame_wants_180() {
    refused_doubles(2, 0, frame);
    refused_doubles(2, 179, frame);
    answers_doubles(&default_frame(), frame);
}

#[test]
fn raise_refuses_2_4() {
    refused(2, 0, |out| raise(16, out));
    for level in [16, 17, 256, u32::MAX] {
        refused(4, 1, |out| raise(level, out));
    }
    for level in 0..16 {
        answers(&[level + level % 2], |out| raise(level, out));
    }
}

#[test]
fn grid_refuses_2_4() {
    refused(2, 2, |out| grid(1, true, out));
    for level in [1, 15, 17, 18, 256, u32::MAX] {
        refused(4, 3, |out| grid(level, false, out));
    }
    answers(&[1, 2, 0], |out| grid(0, false, out));
    answers(&[5764801, 11529602, 0], |out| grid(16, false, out));
    answers(&[3 * 7, 6 * 7, 1], |out| grid(2, true, out));
}

#[test]
fn reduce_refuses_2_alone() {
    refused(2, 2, |out| reduce([1, 1, 1], out));
    answers(&[0, 0, 0], |out| reduce([7, 7, 7], out));
    answers(&[3, 0, 1], |out| reduce([5, 2, 3], out));
    answers(&[u32::MAX, 0, 1], |out| reduce([u32::MAX, 0, 1], out));
}

#[test]
fn map_refuses_2_5_10() {
    refused(2, 2, |out| map(0, [1, 1, 1], out));
    for number in [0, 6, 7, u32::MAX] {
        refused(5, 3, |out| map(number, [1, 1, 1], out));
    }
    for number in 1..6 {
        refused(10, 3, |out| map(number, [1, 1, 1], out));
        refused(10, 3, |out| map(number, [(1 << 26) + 1, 0, 0], out));
    }
    // Where each row of the table sends i, and j.
    for (number, of_i, of_j) in [
        (1, [1, 1, 0], [0, 1, 1]),
        (2, [1, 0, 1], [1, 1, 0]),
        (3, [2, 0, 1], [1, 2, 0]),
        (4, [2, 1, 0], [0, 2, 1]),
        (5, [3, 1, 0], [0, 3, 1]),
    ] {
        answers(&of_i, |out| map(number, [1, 0, 0], out));
        answers(&of_j, |out| map(number, [0, 1, 0], out));
    }
}

#[test]
fn alike_refuses_2_6() {
    let near = 1.0 / 8388608.0;
    refused(2, 0, |out| alike([f64::NAN, 0.0], [0.0; 2], out));
    for bad in [f64::NAN, f64::INFINITY, f64::NEG_INFINITY] {
        refused(6, 1, |out| alike([bad, 0.0], [bad, 0.0], out));
        refused(6, 1, |out| alike([0.0; 2], [0.0, bad], out));
    }
    answers(&[1], |out| alike([0.0, 0.0], [near, -near], out));
    answers(&[0], |out| alike([0.0, 0.0], [0.0, near.next_up()], out));
    answers(&[0], |out| alike([f64::MAX, 0.0], [-f64::MAX, 0.0], out));
}

#[test]
fn round_refuses_2_6_9() {
    for lent in [(2, 2), (0, 2), (3, 1), (3, 0), (2, 1), (0, 0)] {
        refused_both(2, lent, |out, left| round(0.0, 0.0, out, left));
        refused_both(2, lent, |out, left| round(f64::NAN, 0.0, out, left));
        refused_both(2, lent, |out, left| round(f64::MAX, 0.0, out, left));
    }
    for bad in [f64::NAN, f64::INFINITY, f64::NEG_INFINITY] {
        refused_both(6, (3, 2), |out, left| round(bad, 0.0, out, left));
        refused_both(6, (3, 2), |out, left| round(bad, f64::MAX, out, left));
        refused_both(6, (3, 2), |out, left| round(f64::MAX, bad, out, left));
    }
    for far in [33554432.0, -33554432.0, f64::MAX] {
        refused_both(9, (3, 2), |out, left| round(far, 0.0, out, left));
        refused_both(9, (3, 2), |out, left| round(0.0, far, out, left));
    }
    answers_both(&[1, 0, 0], &[0.0, 0.0], |out, left| round(1.0, 0.0, out, left));
    answers_both(&[0, 0, 0], &[0.0, 0.0], |out, left| round(-0.0, -0.0, out, left));
    // r1 and r2 in their order, and those of |x|.
    answers_both(&[0, 0, 0], &[0.25, 0.0], |out, left| round(0.25, 0.0, out, left));
    answers_both(&[0, 1, 1], &[0.75, 0.0], |out, left| round(-0.75, 0.0, out, left));
}

#[test]
fn margin_refuses_2_5() {
    refused_doubles(2, 0, |out| margin(0.25, 0.0, out));
    for bad in [f64::NAN, f64::INFINITY, f64::NEG_INFINITY, 1.0, 1.5, -5e-324, -1.0] {
        refused_doubles(2, 0, |out| margin(bad, bad, out));
        refused_doubles(5, 1, |out| margin(bad, 0.25, out));
        refused_doubles(5, 1, |out| margin(0.25, bad, out));
    }
    // Each leftover is heard; minus zero is not below 0.
    for (r1, r2, value) in [
        (0.0, 0.0, 0.5),
        (-0.0, -0.0, 0.5),
        (0.25, 0.0, 0.25),
        (0.0, 0.375, 0.125),
        (0.25, 0.125, 0.3125),
        (0.75, 0.25, 0.125),
        (0.875, 0.875, 0.375),
        (0.5, 0.0, 0.0),
        (0.0, 0.5, 0.0),
        (0.5, 0.5, 0.0),
    ] {
        answers_doubles(&[value], |out| margin(r1, r2, out));
    }
    let largest = 1.0f64.next_down();
    answers_doubles(&[0.5 - 2f64.powi(-51)], |out| margin(largest, largest, out));
}

#[test]
fn centre_refuses_2_10() {
    refused_doubles(2, 1, |out| centre([1, 1, 1], out));
    refused_doubles(10, 2, |out| centre([1, 1, 1], out));
    refused_doubles(10, 2, |out| centre([(1 << 26) + 1, 0, 0], out));
    refused_doubles(10, 2, |out| centre([-1i32 as u32, 0, 0], out));
    answers_doubles(&[67108864.0, 0.0], |out| centre([1 << 26, 0, 0], out));
}

#[test]
fn meet_refuses_2_6_13() {
    let lines = [-1.0, 0.0, 1.0, 0.0, 0.5, -1.0, 0.5, 1.0];
    let parallel = [0.0, 0.0, 1.0, 0.0, 0.0, 1.0, 1.0, 1.0];
    let unknown = [0.0, 0.0, f64::NAN, 0.0, 0.0, 1.0, 1.0, 1.0];
    refused_doubles(2, 1, |out| meet(&lines, out));
    refused_doubles(2, 2, |out| meet(&lines[..7], out));
    refused_doubles(2, 2, |out| meet(&[lines, lines].concat(), out));
    refused_doubles(6, 2, |out| meet(&unknown, out));
    refused_doubles(13, 2, |out| meet(&parallel, out));
    answers_doubles(&[0.5, 0.0], |out| meet(&lines, out));
}

#[test]
fn direction_refuses_2_3() {
    refused(2, 0, |out| direction(0, 20, out));
    refused(3, 1, |out| direction(0, 20, out));
    refused(3, 1, |out| direction(20, 0, out));
    answers(&[0], |out| direction(0, 0, out));
}

#[test]
fn turn_refuses_2_3_10() {
    refused(2, 3, |out| turn(FACE, false, out));
    refused(3, 4, |out| turn([20, 1, 1, 1], false, out));
    refused(10, 4, |out| turn(UNREDUCED, true, out));
    answers(&[0, 1, 1, 0], |out| turn(GOOD, false, out));
    answers(&[0, 1, 0, 1], |out| turn(GOOD, true, out));
}

#[test]
fn step_refuses_2_3_4_5_10() {
    refused(2, 3, |out| step(FACE, 0, false, 1, out));
    refused(3, 4, |out| step([20, 1, 1, 1], 1, false, 0, out));
    for level in [1, 17, 18, 256, u32::MAX] {
        refused(4, 4, |out| step(UNREDUCED, level, false, 0, out));
    }
    for edge in [0, 4, 7, u32::MAX] {
        refused(5, 4, |out| step(UNREDUCED, 0, false, edge, out));
    }
    refused(10, 4, |out| step(UNREDUCED, 0, true, 1, out));
    answers(&[4, 3, 1, 0], |out| step([0, 3, 0, 0], 0, false, 1, out));
}

#[test]
fn cross_refuses_2_3_4_10() {
    refused(2, 4, |out| cross(FACE, 0, false, false, out));
    refused(3, 5, |out| cross([20, 1, 1, 1], 1, false, false, out));
    refused(4, 5, |out| cross(UNREDUCED, 1, true, true, out));
    refused(10, 5, |out| cross(UNREDUCED, 16, true, true, out));
    answers(&[4, 3, 1, 0, 2], |out| cross([0, 3, 0, 0], 0, false, false, out));
}

#[test]
fn settle_refuses_2_3_4_10() {
    let asked: [(u32, usize, Four, u32); 4] = [(2, 4, FACE, 0), (3, 5, [20, 1, 1, 1], 1), (4, 5, UNREDUCED, 1), (10, 5, UNREDUCED, 0)];
    for (number, lent, place, level) in asked {
        let mut out = vec![99; lent];
        assert_eq!(settle(place, level, false, &mut out), number);
        assert!(out.iter().all(|&n| n == 99));
    }
    let mut out = [99; 7];
    assert_eq!(settle([0, 3, 0, 0], 0, false, &mut out), 0);
    assert_eq!(out, [2, 1, 0, 0, 3, 99, 99]);
}

/// Places that are refused as a corner of level 0, whose limit is 6: each number is given for the place alone, and before all that follow.
const BAD_CORNERS: [(u32, Four); 6] =
    [(3, [20, 1, 1, 1]), (10, UNREDUCED), (10, [0, 7, 7, 7]), (10, [0, (1 << 26) + 1, 0, 0]), (11, [0, 1 << 26, 0, 0]), (11, [0, 0, 3, 4])];

#[test]
fn same_corner_refuses_2_3_4_10_11() {
    for (number, bad) in BAD_CORNERS {
        refused(2, 0, |out| same_corner(bad, bad, 1, out));
        refused(number, 1, |out| same_corner(bad, GOOD, 0, out));
        refused(number, 1, |out| same_corner(GOOD, bad, 0, out));
        for (other_number, other) in BAD_CORNERS {
            refused(number.min(other_number), 1, |out| same_corner(bad, other, 0, out));
        }
        for level in [1, 17, 18, 256, u32::MAX] {
            refused(number.min(4), 1, |out| same_corner(bad, GOOD, level, out));
            refused(number.min(4), 1, |out| same_corner(GOOD, bad, level, out));
        }
    }
    refused(4, 1, |out| same_corner(GOOD, GOOD, 1, out));
    answers(&[1], |out| same_corner(GOOD, GOOD, 0, out));
    answers(&[0], |out| same_corner(GOOD, [1, 1, 0, 0], 0, out));
}

/// Each of the nine arguments is heard: where one is changed, the answer is.
#[test]
fn same_corner_hears_every_argument() {
    let (one, other) = ([4, 4, 0, 2], [0, 4, 2, 0]);
    answers(&[1], |out| same_corner(one, other, 0, out));
    answers(&[1], |out| same_corner(other, one, 0, out));
    for [face, i, j, k] in [[5, 4, 0, 2], [4, 3, 0, 2], [4, 4, 1, 0], [4, 4, 0, 1]] {
        answers(&[0], |out| same_corner([face, i, j, k], other, 0, out));
    }
    for [face, i, j, k] in [[1, 4, 2, 0], [0, 3, 2, 0], [0, 4, 1, 0], [0, 4, 0, 1]] {
        answers(&[0], |out| same_corner(one, [face, i, j, k], 0, out));
    }
    answers(&[0], |out| same_corner(one, other, 2, out));
}

#[test]
fn first_name_refuses_2_3_4_10_11() {
    for (number, bad) in BAD_CORNERS {
        refused(2, 3, |out| first_name(bad, 1, out));
        refused(number, 4, |out| first_name(bad, 0, out));
        for level in [1, 17, 18, 256, u32::MAX] {
            refused(number.min(4), 4, |out| first_name(bad, level, out));
        }
    }
    refused(4, 4, |out| first_name(GOOD, 1, out));
    // The limit of each level is its own: 6, 42, 294 ..
    for level in (0..=16).step_by(2) {
        let limit = 6 * 7u32.pow(level / 2);
        for [i, j, k] in [[limit, 1, 0], [0, limit, 1], [1, 0, limit], [limit + 1, 0, 0]] {
            refused(11, 4, |out| first_name([0, i, j, k], level, out));
        }
        answers(&[0, limit, 0, 0], |out| first_name([3, limit, 0, 0], level, out));
    }
}

/// Level 0: within a face, on an edge by either name, and where five faces meet.
#[test]
fn first_name_hears_every_argument() {
    answers(&[7, 1, 2, 0], |out| first_name([7, 1, 2, 0], 0, out));
    answers(&[0, 4, 2, 0], |out| first_name([4, 4, 0, 2], 0, out));
    answers(&[0, 4, 2, 0], |out| first_name([0, 4, 2, 0], 0, out));
    answers(&[0, 6, 0, 0], |out| first_name([3, 6, 0, 0], 0, out));
    answers(&[0, 0, 6, 0], |out| first_name([4, 0, 0, 6], 0, out));
    answers(&[4, 4, 0, 2], |out| first_name([4, 4, 0, 2], 2, out));
}

fn nearest_keeps(number: u32, frame: &[f64], vector: [f64; 3], faces: usize, distances: usize) {
    refused_both(number, (faces, distances), |face, distance| nearest(frame, vector, face, distance));
}

#[test]
fn nearest_refuses_1_2_6_7() {
    let frame = default_frame();
    nearest_keeps(1, &frame[..179], NAN3, 0, 0);
    nearest_keeps(1, &[0.0; 180], NAN3, 1, 1);
    nearest_keeps(2, &frame, NAN3, 0, 1);
    nearest_keeps(2, &frame, NAN3, 1, 0);
    nearest_keeps(6, &frame, NAN3, 1, 1);
    nearest_keeps(6, &frame, [f64::INFINITY, 0.0, 0.0], 1, 1);
    nearest_keeps(7, &frame, LONG, 1, 1);
    nearest_keeps(7, &frame, [0.0; 3], 1, 1);
    let (mut face, mut distance) = ([OLD; 2], [OLD_DOUBLE; 2]);
    let centre = [frame[63], frame[64], frame[65]];
    assert_eq!(nearest(&frame, centre, &mut face, &mut distance), 0);
    assert_eq!((face, distance), ([7, OLD], [0.0, OLD_DOUBLE]));
}

/// Frames that are refused: length, a number, a part of u, a centre.
fn bad_frames() -> Vec<Vec<f64>> {
    let frame = default_frame();
    let with = |n: usize, number: f64| {
        let mut bad = frame.to_vec();
        bad[n] = number;
        bad
    };
    let longer = [&frame[..], &[0.0]].concat();
    vec![vec![], frame[..179].to_vec(), longer, with(179, f64::NAN), with(3, 3.5), with(171, 2.0), vec![0.0; 180]]
}

#[test]
fn plane_point_refuses_1_2_3_4_6_7_8() {
    let frame = default_frame();
    for bad in bad_frames() {
        refused_doubles(1, 2, |out| plane_point(&bad, 20, 16, NAN3, out));
        refused_doubles(1, 1, |out| plane_point(&bad, 20, 16, NAN3, out));
    }
    refused_doubles(2, 1, |out| plane_point(&frame, 20, 16, NAN3, out));
    refused_doubles(3, 2, |out| plane_point(&frame, 20, 16, NAN3, out));
    refused_doubles(4, 2, |out| plane_point(&frame, 19, 16, NAN3, out));
    refused_doubles(6, 2, |out| plane_point(&frame, 19, 15, NAN3, out));
    refused_doubles(7, 2, |out| plane_point(&frame, 19, 15, LONG, out));
    refused_doubles(8, 2, |out| plane_point(&one_sided_frame(), 19, 15, [0.0, 0.0, -1.0], out));
    answers_doubles(&[0.0, 0.0], |out| plane_point(&one_sided_frame(), 19, 15, [0.0, 0.0, 1.0], out));
    answers_doubles(&[0.6 / 0.8, 0.0], |out| plane_point(&one_sided_frame(), 3, 0, [0.6, 0.0, 0.8], out));
    answers_doubles(&[7.0 * (0.6 / 0.8), 0.0], |out| plane_point(&one_sided_frame(), 3, 2, [0.6, 0.0, 0.8], out));
}

#[test]
fn place_refuses_1_2_4_6_7_8() {
    let frame = default_frame();
    let short = [(3, 2), (0, 2), (4, 1), (4, 0), (3, 1), (0, 0)];
    for bad in bad_frames() {
        for lent in [(4, 2)].into_iter().chain(short) {
            refused_both(1, lent, |out, left| place(&bad, NAN3, 16, out, left));
        }
    }
    for lent in short {
        refused_both(2, lent, |out, left| place(&frame, NAN3, 16, out, left));
        refused_both(2, lent, |out, left| place(&frame, X, 15, out, left));
    }
    refused_both(4, (4, 2), |out, left| place(&frame, NAN3, 16, out, left));
    refused_both(6, (4, 2), |out, left| place(&frame, NAN3, 15, out, left));
    refused_both(7, (4, 2), |out, left| place(&frame, LONG, 15, out, left));
    refused_both(8, (4, 2), |out, left| place(&one_sided_frame(), [0.0, 0.0, -1.0], 15, out, left));
    answers_both(&[0, 0, 0, 0], &[0.0, 0.0], |out, left| place(&one_sided_frame(), [0.0, 0.0, 1.0], 15, out, left));
    // About 5.25 along x, to one side and to the other.
    let left_over = 7.0 * (0.6 / 0.8) - 5.0;
    answers_both(&[0, 5, 0, 0], &[left_over, 0.0], |out, left| place(&one_sided_frame(), [0.6, 0.0, 0.8], 2, out, left));
    answers_both(&[0, 0, 5, 5], &[left_over, 0.0], |out, left| place(&one_sided_frame(), [-0.6, 0.0, 0.8], 2, out, left));
}

fn batch_keeps(number: u32, frame: &[f64], level: u32, input: &[f64], (lent, first, counts): (usize, usize, usize)) {
    let (mut out, mut refused) = (vec![7; lent], vec![55; counts]);
    assert_eq!(batch(frame, level, input, &mut out, first, &mut refused), number);
    assert!(out.iter().all(|&n| n == 7) && refused.iter().all(|&n| n == 55));
}

#[test]
fn batch_refuses_1_2_4() {
    let frame = default_frame();
    for bad in bad_frames() {
        batch_keeps(1, &bad, 16, &X, (4, 0, 1));
        batch_keeps(1, &bad, 16, &X[..2], (3, 9, 0));
    }
    // No room for the count; an input of 2; an output of 7; a row too few; a first row beyond all rows, also where 4 times it overflows.
    batch_keeps(2, &frame, 16, &X, (4, 0, 0));
    batch_keeps(2, &frame, 16, &X[..2], (4, 0, 1));
    batch_keeps(2, &frame, 16, &X, (7, 0, 1));
    batch_keeps(2, &frame, 16, &X, (4, 1, 1));
    batch_keeps(2, &frame, 16, &X, (4, 2, 1));
    batch_keeps(2, &frame, 16, &X, (4, usize::MAX, 1));
    batch_keeps(2, &frame, 16, &X, (4, 1 << 62, 1));
    batch_keeps(2, &frame, 16, &[], (4, 2, 1));
    batch_keeps(4, &frame, 16, &X, (4, 0, 1));
}

#[test]
fn batch_writes_its_rows_alone() {
    let frame = default_frame();
    let input = [X, NAN3, LONG, X].concat();
    let (mut out, mut refused) = (vec![7; 24], [55; 2]);
    assert_eq!(batch(&frame, 9, &input, &mut out, 1, &mut refused), 0);
    let mut alone = [0; 4];
    assert_eq!(place(&frame, X, 9, &mut alone, &mut [0.0; 2]), 0);
    let good = alone.map(|n| n as i32);
    assert_eq!(out, [[7; 4], good, [-6, 0, 0, 0], [-7, 0, 0, 0], good, [7; 4]].concat());
    assert_eq!(refused, [2, 55]);
}

#[test]
fn batch_of_none_writes_its_count() {
    for lent in [0, 4] {
        let (mut out, mut refused) = (vec![7; lent], [55]);
        assert_eq!(batch(&default_frame(), 9, &[], &mut out, lent / 4, &mut refused), 0);
        assert_eq!((out, refused), (vec![7; lent], [0]));
    }
}

#[test]
fn batch_row_behind_is_minus_8() {
    let (mut out, mut refused) = ([7; 4], [55]);
    assert_eq!(batch(&one_sided_frame(), 9, &[0.0, 0.0, -1.0], &mut out, 0, &mut refused), 0);
    assert_eq!((out, refused), ([-8, 0, 0, 0], [1]));
}

#[test]
fn corners_refuse_2_3_4_10() {
    refused(2, 18, |out| corners(FACE, 16, out));
    refused(3, 19, |out| corners([20, 1, 1, 1], 16, out));
    refused(4, 19, |out| corners(UNREDUCED, 16, out));
    refused(10, 19, |out| corners(UNREDUCED, 15, out));
    answers(&[0, 5, 1, 0, 4, 2, 0, 2, 1, 0, 2, 0, 1, 4, 0, 2, 5, 0, 1], |out| corners(GOOD, 0, out));
}

type Border = fn(Four, u32, u32, u32, &mut [u32], &mut [f64]) -> u32;

fn border_keeps(border: Border, number: u32, centre: Four, level: u32, (start, length): (u32, u32), (marked, pointed): (usize, usize)) {
    refused_both(number, (marked, pointed), |marks, points| border(centre, level, start, length, marks, points));
}

#[test]
fn borders_refuse_2_3_4_5_10_11() {
    for (border, sides) in [(hexagon as Border, 6), (pentagon as Border, 5)] {
        border_keeps(border, 2, FACE, 16, (0, 0), (24, 24));
        border_keeps(border, 2, FACE, 16, (0, 0), (25, 23));
        border_keeps(border, 3, [20, 1, 1, 1], 16, (0, 0), (25, 24));
        border_keeps(border, 4, UNREDUCED, 16, (sides, 0), (25, 24));
        border_keeps(border, 5, UNREDUCED, 15, (sides, 0), (25, 24));
        border_keeps(border, 5, UNREDUCED, 15, (0, sides + 1), (25, 24));
        border_keeps(border, 10, UNREDUCED, 15, (0, sides), (25, 24));
        border_keeps(border, 11, [0, 3, 0, 0], 0, (0, sides), (25, 24));
    }
}

#[test]
fn pentagon_refuses_12() {
    border_keeps(pentagon, 12, [0, 0, 0, 0], 1, (0, 2), (25, 24));
}

#[test]
fn borders_write_no_more_than_their_length() {
    for border in [hexagon as Border, pentagon as Border] {
        let (mut marks, mut points) = (vec![OLD; 27], vec![OLD_DOUBLE; 26]);
        assert_eq!(border(GOOD, 0, 0, 2, &mut marks, &mut points), 0);
        assert_eq!(marks[..6], [2, 0, 1, 0, 1, 0]);
        assert!(marks[5..25].iter().all(|&n| n == 0) && points[4..24].iter().all(|&n| n == 0.0));
        assert_eq!((&marks[25..], &points[24..]), (&[OLD; 2][..], &[OLD_DOUBLE; 2][..]));
    }
}

#[test]
fn empty_border_has_no_points() {
    let (mut marks, mut points) = ([OLD; 25], [OLD_DOUBLE; 24]);
    assert_eq!(hexagon(GOOD, 0, 5, 0, &mut marks, &mut points), 0);
    assert_eq!((marks, points), ([0; 25], [0.0; 24]));
}

#[test]
fn root_refuses_2_6() {
    refused_doubles(2, 0, |out| root(-1.0, out));
    for bad in [-1.0, -f64::MIN_POSITIVE, -5e-324, f64::NAN, f64::INFINITY, f64::NEG_INFINITY] {
        refused_doubles(6, 1, |out| root(bad, out));
    }
    // Squares, the least and the largest double, and the two neighbours of 1: the exact root of the upper one lies halfway but for a hair.
    for good in [0.0, -0.0, 1.0, 2.0, 4.0, 0.25, 5e-324, f64::MIN_POSITIVE, f64::MAX, 1.0f64.next_up(), 1.0f64.next_down()] {
        let mut out = [OLD_DOUBLE; 2];
        assert_eq!(root(good, &mut out), 0);
        assert_eq!((out[0].to_bits(), out[1]), (good.sqrt().to_bits(), OLD_DOUBLE), "{good}");
    }
}

/// A frame that passes its test, whose face 0 has another u and v.
fn frame_with(u: [f64; 3], v: [f64; 3]) -> [f64; 180] {
    let mut frame = one_sided_frame();
    frame[3..6].copy_from_slice(&u);
    frame[6..9].copy_from_slice(&v);
    frame
}

#[test]
fn sphere_refuses_1_2_3_4_6_8() {
    let frame = default_frame();
    for bad in bad_frames() {
        refused_doubles(1, 3, |out| sphere(&bad, 20, 1, [f64::NAN; 2], out));
        refused_doubles(1, 2, |out| sphere(&bad, 20, 1, [f64::NAN; 2], out));
    }
    refused_doubles(2, 2, |out| sphere(&frame, 20, 1, [f64::NAN; 2], out));
    refused_doubles(3, 3, |out| sphere(&frame, 20, 1, [f64::NAN; 2], out));
    refused_doubles(4, 3, |out| sphere(&frame, 19, 1, [f64::NAN; 2], out));
    refused_doubles(4, 3, |out| sphere(&frame, 19, 18, [f64::NAN; 2], out));
    for bad in [f64::NAN, f64::INFINITY, f64::NEG_INFINITY, f64::MAX] {
        refused_doubles(6, 3, |out| sphere(&frame, 19, 16, [bad, 0.0], out));
        refused_doubles(6, 3, |out| sphere(&frame, 19, 16, [0.0, bad], out));
    }
    // u without a length, and so short that its square is zero.
    for u in [[0.0; 3], [1e-200, 0.0, 0.0]] {
        refused_doubles(6, 3, |out| sphere(&frame_with(u, [0.0, 1.0, 0.0]), 0, 0, [0.0, 0.0], out));
    }
    // u against the centre: x = 3 leads to the middle of the Earth, x = 1.5 just as far as a half, which is taken.
    let inward = frame_with([0.0, 0.0, -1.0], [0.0, 1.0, 0.0]);
    refused_doubles(8, 3, |out| sphere(&inward, 0, 0, [3.0, 0.0], out));
    refused_doubles(8, 3, |out| sphere(&inward, 0, 0, [1.5f64.next_up(), 0.0], out));
    answers_doubles(&[0.0, 0.0, 1.0], |out| sphere(&inward, 0, 0, [1.5, 0.0], out));
    // 3·7 units of level 2 are the length of u.
    answers_doubles(&[1.0 / 2f64.sqrt(), 0.0, 1.0 / 2f64.sqrt()], |out| sphere(&one_sided_frame(), 3, 2, [21.0, 0.0], out));
    answers_doubles(&[0.0, 0.6, 0.8], |out| sphere(&one_sided_frame(), 3, 0, [0.0, 2.25], out));
}

type BorderOnSphere = fn(&[f64], Four, u32, u32, u32, &mut [u32], &mut [f64]) -> u32;

fn globe_keeps(
    border: BorderOnSphere,
    number: u32,
    frame: &[f64],
    centre: Four,
    level: u32,
    (start, length): (u32, u32),
    lent: (usize, usize),
) {
    refused_both(number, lent, |marks, points| border(frame, centre, level, start, length, marks, points));
}

#[test]
fn borders_on_the_sphere_refuse_1_2_3_4_5_10_11() {
    let frame = default_frame();
    for (border, sides) in [(hexagon_sphere as BorderOnSphere, 6), (pentagon_sphere as BorderOnSphere, 5)] {
        for bad in bad_frames() {
            globe_keeps(border, 1, &bad, FACE, 16, (0, 0), (25, 36));
            globe_keeps(border, 1, &bad, FACE, 16, (0, 0), (0, 0));
        }
        globe_keeps(border, 2, &frame, FACE, 16, (0, 0), (24, 36));
        globe_keeps(border, 2, &frame, FACE, 16, (0, 0), (25, 35));
        globe_keeps(border, 3, &frame, [20, 1, 1, 1], 16, (0, 0), (25, 36));
        globe_keeps(border, 4, &frame, UNREDUCED, 16, (sides, 0), (25, 36));
        globe_keeps(border, 5, &frame, UNREDUCED, 15, (sides, 0), (25, 36));
        globe_keeps(border, 5, &frame, UNREDUCED, 15, (0, sides + 1), (25, 36));
        globe_keeps(border, 10, &frame, UNREDUCED, 15, (0, sides), (25, 36));
        globe_keeps(border, 11, &frame, [0, 3, 0, 0], 0, (0, sides), (25, 36));
        // u of length zero, on the face of the centre: nothing is asked of it until there is a point.
        let short = frame_with([0.0; 3], [0.0, 1.0, 0.0]);
        globe_keeps(border, 6, &short, [0, 0, 0, 0], 0, (0, 1), (25, 36));
        let (mut marks, mut points) = ([OLD; 25], [OLD_DOUBLE; 36]);
        assert_eq!(border(&short, [0, 0, 0, 0], 0, 0, 0, &mut marks, &mut points), 0);
        assert_eq!((marks, points), ([0; 25], [0.0; 36]));
    }
    globe_keeps(pentagon_sphere, 12, &frame, [0, 0, 0, 0], 1, (0, 2), (25, 36));
}

/// u leads inward, so that of the hexagon at the centre one corner is behind, the others are not: whichever part of the border has that
/// corner is refused.
#[test]
fn the_first_refused_point_refuses_the_border() {
    let inward = frame_with([0.0, 0.0, -1.0], [0.0, 1.0, 0.0]);
    let asked = |start, length| hexagon_sphere(&inward, [0, 0, 0, 0], 0, start, length, &mut [0; 25], &mut [0.0; 36]);
    let each: Vec<u32> = (0..6).map(|corner| asked(corner, 1)).collect();
    for start in 0..6 {
        for length in 1..=6 {
            let first = (0..length).map(|n| each[(start + n) as usize % 6]).find(|&number| number != 0).unwrap_or(0);
            assert_eq!(asked(start, length), first, "{start} {length}: {each:?}");
        }
    }
}

#[test]
fn borders_on_the_sphere_write_no_more_than_their_length() {
    for border in [hexagon_sphere as BorderOnSphere, pentagon_sphere as BorderOnSphere] {
        let (mut marks, mut points) = (vec![OLD; 27], vec![OLD_DOUBLE; 38]);
        assert_eq!(border(&default_frame(), GOOD, 0, 0, 2, &mut marks, &mut points), 0);
        assert_eq!(marks[..6], [2, 0, 1, 0, 1, 0]);
        assert!(marks[5..25].iter().all(|&n| n == 0) && points[6..36].iter().all(|&n| n == 0.0));
        assert_eq!((&marks[25..], &points[36..]), (&[OLD; 2][..], &[OLD_DOUBLE; 2][..]));
    }
}

/// Two places in order, and the list of them.
const ROWS: [i32; 8] = [3, 5, 0, 0, 19, 0, 1, 2];

fn region_list() -> [u8; 120] {
    let mut out = [0; 120];
    assert_eq!(region_write(15, &ROWS, &mut out), 0);
    out
}

fn region_write_keeps(number: u32, level: u32, rows: &[i32], lent: usize) {
    let mut out = vec![7; lent];
    assert_eq!(region_write(level, rows, &mut out), number);
    assert!(out.iter().all(|&byte| byte == 7), "a refusal {number} wrote");
}

#[test]
fn region_write_refuses_2_15_4() {
    let wrong = [3, 1, 1, 1, -6, 0, 0, 0];
    for rows in [&wrong[..1], &wrong[..3], &wrong[..5], &wrong[..7]] {
        for lent in [0, 88, 104, 120] {
            region_write_keeps(2, 16, rows, lent);
        }
    }
    for lent in [0, 87, 88, 104, 119, 121, 136] {
        region_write_keeps(2, 16, &wrong, lent);
    }
    region_write_keeps(15, 16, &wrong, 120);
    region_write_keeps(15, 16, &wrong[4..], 104);
    region_write_keeps(15, 16, &[ROWS, ROWS].concat(), 152);
    region_write_keeps(4, 16, &ROWS, 120);
    region_write_keeps(4, 16, &[], 88);
    // All of what is lent is written.
    let (mut out, mut again) = ([7; 120], [8; 120]);
    assert_eq!((region_write(0, &ROWS, &mut out), region_write(0, &ROWS, &mut again)), (0, 0));
    assert_eq!(out, again);
}

#[test]
fn region_check_refuses_2_15() {
    let list = region_list();
    for lent in [0, 1] {
        refused(2, lent, |out| region_check(&list, out));
        refused(2, lent, |out| region_check(&list[1..], out));
    }
    for bad in [&[][..], &list[..88], &list[1..], &list[16..]] {
        refused(15, 2, |out| region_check(bad, out));
    }
    answers(&[15, 2], |out| region_check(&list, out));
}

#[test]
fn region_record_refuses_2_15_5() {
    let list = region_list();
    for lent in 0..4 {
        refused(2, lent, |out| region_record(&list[1..], 2, out));
        refused(2, lent, |out| region_record(&list, 0, out));
    }
    refused(15, 4, |out| region_record(&[], 2, out));
    refused(15, 4, |out| region_record(&list[1..], 2, out));
    refused(5, 4, |out| region_record(&list, 2, out));
    refused(5, 4, |out| region_record(&list, u32::MAX, out));
    answers(&[3, 5, 0, 0], |out| region_record(&list, 0, out));
    answers(&[19, 0, 1, 2], |out| region_record(&list, 1, out));
}

#[test]
fn region_has_refuses_2_15_3_10() {
    let list = region_list();
    // Face 4 begins at record 255, which is past the count.
    let mut past = list;
    past[32 + 4 * 4] = 255;
    refused(2, 0, |out| region_has(&list[1..], FACE, out));
    refused(2, 0, |out| region_has(&past, [3, 1, 1, 1], out));
    refused(15, 1, |out| region_has(&list[1..], FACE, out));
    refused(15, 1, |out| region_has(&past, [3, 1, 1, 1], out));
    refused(15, 1, |out| region_has(&past, [4, 1, 1, 1], out));
    refused(3, 1, |out| region_has(&past, [20, 1, 1, 1], out));
    refused(3, 1, |out| region_has(&list, [20, 1, 1, 1], out));
    refused(10, 1, |out| region_has(&list, UNREDUCED, out));
    refused(10, 1, |out| region_has(&list, [0, (1 << 26) + 1, 0, 0], out));
    // Each of the four numbers is heard.
    answers(&[1], |out| region_has(&list, [19, 0, 1, 2], out));
    for other in [[18, 0, 1, 2], [19, 1, 0, 2], [19, 0, 2, 2], [19, 0, 1, 3]] {
        answers(&[0], |out| region_has(&list, other, out));
    }
}
