//! Writes the sample of `ask_main`: questions as lines, and beside them the oracle's answers. The proved library is asked
//! nothing here, so that a sample never repeats a mistake of its own.
use crate::borders::{self, HEXAGON, PENTAGON, Part, Shape};
use crate::globe::{self, HEXAGON_SPHERE, Outline, PENTAGON_SPHERE};
use crate::ours::{At, Border, Globe, Said, Vector};
use crate::{chance::Chance, names, places, plane, root, round, sphere, vectors, vectors::Frame};
use std::fs;
use std::path::Path;

/// How many questions of each kind are drawn.
const MANY: usize = 2000;
/// How many of them at least get each refusal that the question can give.
const LEAST: usize = 20;
/// The first seed; each kind has its own, so that a change to one leaves the others alone.
const SEED: u64 = 100;

const REFUSALS: [&str; 15] = [
    "", "BadFrame", "BadRows", "BadFace", "BadLevel", "BadRange", "BadNumber", "OffSphere", "Behind", "TooFar", "NotReduced", "OutOfFace",
    "NotAdjacent", "NoCrossing", "BadLine",
];

/// A question's line and its answer's; the number is the refusal's, 0 for none.
struct Entry {
    line: String,
    number: usize,
    answer: String,
}

fn refused(number: usize) -> String {
    format!("refused {number} {}", REFUSALS[number])
}

impl Entry {
    fn new<const N: usize>(line: String, said: Said<N>, words: impl Fn([u64; N]) -> String) -> Self {
        let number = said.number as usize;
        let answer = if number == 0 { words(said.values) } else { refused(number) };
        Self { line, number, answer }
    }
}

// What answers look like.

fn joined(words: impl IntoIterator<Item = impl ToString>) -> String {
    words.into_iter().map(|w| w.to_string()).collect::<Vec<_>>().join(" ")
}

fn plain<const N: usize>(values: [u64; N]) -> String {
    joined(values)
}

fn bits(x: u64) -> String {
    format!("{x:016x}")
}

/// Numbers, and the two leftovers that follow them.
fn with_leftovers<const N: usize>(values: [u64; N]) -> String {
    let (numbers, left) = values.split_at(N - 2);
    format!("{} {}", joined(numbers), joined(left.iter().map(|&x| bits(x))))
}

fn crossed([f, i, j, k, answer]: [u64; 5]) -> String {
    format!("{f} {i} {j} {k} {}", ["None", "FaceEdge", "NewFace"][answer as usize])
}

fn yes_or_no([same]: [u64; 1]) -> String {
    ["no", "yes"][same as usize].into()
}

/// The points of a boundary that are used; `Border` tells in which order the values stand.
fn outlined(values: [u64; 49]) -> String {
    let mark = |n: usize| ["corner", "crossing"][values[2 * n + 2] as usize - 1];
    let point = |n: usize| format!(" {} {} {} {}", values[2 * n + 1], bits(values[2 * n + 25]), bits(values[2 * n + 26]), mark(n));
    let count = values[0] as usize;
    (0..count).map(point).fold(count.to_string(), |all, one| all + &one)
}

/// The same on the sphere, where `Globe` tells the order.
fn outlined_on_sphere(values: [u64; 61]) -> String {
    let mark = |n: usize| ["corner", "crossing"][values[2 * n + 2] as usize - 1];
    let point = |n: usize| format!(" {} {} {}", values[2 * n + 1], joined(values[3 * n + 25..3 * n + 28].iter().map(|&x| bits(x))), mark(n));
    let count = values[0] as usize;
    (0..count).map(point).fold(count.to_string(), |all, one| all + &one)
}

// What questions look like.

/// The shortest decimal that reads back as a double, if it has at most 15 digits. Minus zero is left to its bits.
fn decimal(x: f64) -> Option<String> {
    let word = format!("{x}");
    let digits = word.chars().filter(char::is_ascii_digit).count();
    (x.is_finite() && digits <= 15 && x.to_bits() != (-0f64).to_bits()).then_some(word)
}

/// A double's bits, or now and then its decimal.
fn double(c: &mut Chance, x: f64) -> String {
    match decimal(x) {
        Some(word) if c.below(2) == 0 => word,
        _ => bits(x.to_bits()),
    }
}

fn doubles<const N: usize>(c: &mut Chance, all: [f64; N]) -> String {
    joined(all.map(|x| double(c, x)))
}

fn kind_of_grid(substrate: bool) -> char {
    if substrate { 's' } else { 'p' }
}

// The questions, each with the oracle's answer.

fn ask_round(c: &mut Chance, x: f64, y: f64) -> Entry {
    Entry::new(format!("round {}", doubles(c, [x, y])), round::oracle(x, y), with_leftovers)
}

fn ask_centre((i, j, k): (u32, u32, u32)) -> Entry {
    Entry::new(format!("centre {i} {j} {k}"), plane::oracle_centre((i, j, k)), |p| joined(p.map(bits)))
}

fn ask_meet(c: &mut Chance, lines: [f64; 8]) -> Entry {
    Entry::new(format!("meet {}", doubles(c, lines)), plane::oracle_meet(&lines), |p| joined(p.map(bits)))
}

fn ask_turn(at: At, clockwise: bool) -> Entry {
    let ((f, i, j, k), way) = (at, if clockwise { "cw" } else { "ccw" });
    Entry::new(format!("turn {f} {i} {j} {k} {way}"), places::oracle_turn(at, clockwise), plain)
}

fn ask_step(at: At, level: u32, substrate: bool, edge: u32) -> Entry {
    let ((f, i, j, k), grid) = (at, kind_of_grid(substrate));
    Entry::new(format!("step {f} {level} {grid} {i} {j} {k} {edge}"), places::oracle_step(at, level, substrate, edge), plain)
}

fn ask_cross(at: At, level: u32, substrate: bool, turn: bool) -> Entry {
    let ((f, i, j, k), grid, word) = (at, kind_of_grid(substrate), yes_or_no([turn.into()]));
    Entry::new(format!("cross {f} {level} {grid} {i} {j} {k} {word}"), places::oracle_cross(at, level, substrate, turn), crossed)
}

fn ask_settle(at: At, level: u32, substrate: bool) -> Entry {
    let ((f, i, j, k), grid) = (at, kind_of_grid(substrate));
    Entry::new(format!("settle {f} {level} {grid} {i} {j} {k}"), places::oracle_settle(at, level, substrate), plain)
}

fn ask_direction(from: u32, to: u32) -> Entry {
    Entry::new(format!("direction {from} {to}"), places::oracle_direction(from, to), plain)
}

fn ask_same(level: u32, a: At, b: At) -> Entry {
    let ((f, i, j, k), (g, x, y, z)) = (a, b);
    Entry::new(format!("same {level} {f} {i} {j} {k} {g} {x} {y} {z}"), names::oracle_same(a, b, level), yes_or_no)
}

fn ask_first(at: At, level: u32) -> Entry {
    let (f, i, j, k) = at;
    Entry::new(format!("first {f} {level} {i} {j} {k}"), names::oracle_first(at, level), plain)
}

/// None where the Rust and document 01 differ, near a tie of two faces.
fn ask_nearest(c: &mut Chance, frame: &Frame, v: Vector) -> Option<Entry> {
    let said = vectors::agreed_nearest(frame, v)?;
    Some(Entry::new(format!("nearest {}", doubles(c, v)), said, |[face, distance]| format!("{face} {}", bits(distance))))
}

/// None where the Rust and document 01 differ, near the border of a hexagon.
fn ask_place(c: &mut Chance, frame: &Frame, level: u32, v: Vector) -> Option<Entry> {
    let said = vectors::agreed_place(frame, v, level)?;
    Some(Entry::new(format!("place {level} {}", doubles(c, v)), said, with_leftovers))
}

fn ask_corners(at: At, level: u32) -> Entry {
    let (f, i, j, k) = at;
    Entry::new(format!("corners {f} {level} {i} {j} {k}"), borders::oracle_corners(at, level), plain)
}

fn ask_border(shape: &Shape, at: At, level: u32, part: Part) -> Entry {
    let ((f, i, j, k), (start, length)) = (at, part);
    let said: Border = borders::oracle(shape, at, level, part);
    Entry::new(format!("{} {f} {level} {i} {j} {k} {start} {length}", shape.name), said, outlined)
}

fn ask_root(c: &mut Chance, x: f64) -> Entry {
    Entry::new(format!("root {}", double(c, x)), root::oracle(x), |r| joined(r.map(bits)))
}

fn ask_sphere(c: &mut Chance, face: u32, level: u32, (x, y): (f64, f64)) -> Entry {
    let said = sphere::oracle(&Frame::default(), face, level, (x, y));
    Entry::new(format!("sphere {face} {level} {}", doubles(c, [x, y])), said, |v| joined(v.map(bits)))
}

fn ask_globe(outline: &Outline, at: At, level: u32, part: Part) -> Entry {
    let ((f, i, j, k), (start, length)) = (at, part);
    let said: Globe = globe::oracle(outline.plane, &Frame::default(), at, level, part);
    Entry::new(format!("{} {f} {level} {i} {j} {k} {start} {length}", outline.name), said, outlined_on_sphere)
}

// The judge's own mixes.

/// Now and then one number that has more than a byte, or the highest bits: a line can say it as well as any other.
fn strange<const N: usize>(c: &mut Chance, mut numbers: [u32; N]) -> [u32; N] {
    let all = [256, 1 << 16, (1 << 26) + 1, (1 << 31) - 1, 1 << 31, u32::MAX];
    if c.below(40) == 0 {
        numbers[c.below(N as u64) as usize] = all[c.below(all.len() as u64) as usize];
    }
    numbers
}

fn draw_round(c: &mut Chance) -> Option<Entry> {
    let (x, y) = round::some_point(c);
    Some(ask_round(c, x, y))
}

fn draw_centre(c: &mut Chance) -> Option<Entry> {
    let (i, j, k) = plane::some_triple(c);
    let [i, j, k] = strange(c, [i, j, k]);
    Some(ask_centre((i, j, k)))
}

fn draw_meet(c: &mut Chance) -> Option<Entry> {
    let lines = plane::some_lines(c);
    Some(ask_meet(c, lines))
}

fn draw_turn(c: &mut Chance) -> Option<Entry> {
    let (f, i, j, k) = places::some_place(c, 1000);
    let [f, i, j, k] = strange(c, [f, i, j, k]);
    Some(ask_turn((f, i, j, k), c.below(2) == 1))
}

fn draw_step(c: &mut Chance) -> Option<Entry> {
    let (level, substrate, edge) = (places::some_level(c), c.below(2) == 1, c.below(5) as u32);
    let (f, i, j, k) = places::some_place(c, places::around(level, substrate));
    let [f, i, j, k, level, edge] = strange(c, [f, i, j, k, level, edge]);
    Some(ask_step((f, i, j, k), level, substrate, edge))
}

fn draw_cross(c: &mut Chance) -> Option<Entry> {
    let (level, substrate, turn) = (places::some_level(c), c.below(2) == 1, c.below(3) == 0);
    let (f, i, j, k) = places::some_place(c, places::around(level, substrate));
    let [f, i, j, k, level] = strange(c, [f, i, j, k, level]);
    Some(ask_cross((f, i, j, k), level, substrate, turn))
}

fn draw_settle(c: &mut Chance) -> Option<Entry> {
    let (level, substrate) = (places::some_level(c), c.below(2) == 1);
    // few walks are long ones, so that a reader of the sample is soon through
    let far = if c.below(500) == 0 { places::LARGEST / 64 } else { places::around(level, substrate).saturating_mul(300) };
    let (f, i, j, k) = places::some_start(c, level, substrate, far);
    let [f, i, j, k, level] = strange(c, [f, i, j, k, level]);
    Some(ask_settle((f, i, j, k), level, substrate))
}

fn draw_direction(c: &mut Chance) -> Option<Entry> {
    let [from, to] = [c.below(21) as u32, c.below(21) as u32];
    let [from, to] = strange(c, [from, to]);
    Some(ask_direction(from, to))
}

fn draw_same(c: &mut Chance) -> Option<Entry> {
    let level = places::some_level(c);
    let ((f, i, j, k), (g, x, y, z)) = names::some_pair(c, level);
    let [level, f, i, j, k, g, x, y, z] = strange(c, [level, f, i, j, k, g, x, y, z]);
    Some(ask_same(level, (f, i, j, k), (g, x, y, z)))
}

fn draw_first(c: &mut Chance) -> Option<Entry> {
    let level = places::some_level(c);
    let (f, i, j, k) = names::some_corner(c, level);
    let [f, i, j, k, level] = strange(c, [f, i, j, k, level]);
    Some(ask_first((f, i, j, k), level))
}

fn draw_nearest(c: &mut Chance) -> Option<Entry> {
    let (frame, level) = (Frame::default(), c.below(16) as u32);
    let v = vectors::some_vector(c, &frame, level);
    ask_nearest(c, &frame, v)
}

fn draw_place(c: &mut Chance) -> Option<Entry> {
    let (frame, level) = (Frame::default(), vectors::some_level(c));
    let v = vectors::some_vector(c, &frame, level);
    let [level] = strange(c, [level]);
    ask_place(c, &frame, level, v)
}

fn draw_corners(c: &mut Chance) -> Option<Entry> {
    let level = borders::some_level(c);
    let (f, i, j, k) = borders::some_cell(c, level);
    let [f, i, j, k, level] = strange(c, [f, i, j, k, level]);
    Some(ask_corners((f, i, j, k), level))
}

/// A cell and a part of its boundary.
fn draw_part(c: &mut Chance, shape: &Shape, level: u32, (f, i, j, k): At) -> (At, u32, Part) {
    let (start, length) = borders::some_part(c, shape);
    let [f, i, j, k, level, start, length] = strange(c, [f, i, j, k, level, start, length]);
    ((f, i, j, k), level, (start, length))
}

fn draw_six(c: &mut Chance) -> (At, u32, Part) {
    let level = borders::some_level(c);
    let at = borders::some_cell(c, level);
    draw_part(c, &HEXAGON, level, at)
}

/// One in three lies where a pentagon does: elsewhere few have crossing points.
fn draw_five(c: &mut Chance) -> (At, u32, Part) {
    let level = borders::some_level(c);
    let real = c.below(3) == 0;
    let at = if real { borders::pentagon_centre(c.below(20) as u32, c.below(3), level.min(15)) } else { borders::some_cell(c, level) };
    draw_part(c, &PENTAGON, level, at)
}

fn draw_hexagon(c: &mut Chance) -> Option<Entry> {
    let (at, level, part) = draw_six(c);
    Some(ask_border(&HEXAGON, at, level, part))
}

fn draw_pentagon(c: &mut Chance) -> Option<Entry> {
    let (at, level, part) = draw_five(c);
    Some(ask_border(&PENTAGON, at, level, part))
}

fn draw_root(c: &mut Chance) -> Option<Entry> {
    let x = root::some_number(c);
    Some(ask_root(c, x))
}

fn draw_sphere(c: &mut Chance) -> Option<Entry> {
    let (face, level) = (sphere::some_face(c), places::some_level(c));
    let point = sphere::some_point(c, level);
    let [face, level] = strange(c, [face, level]);
    Some(ask_sphere(c, face, level, point))
}

fn draw_globe6(c: &mut Chance) -> Option<Entry> {
    let (at, level, part) = draw_six(c);
    Some(ask_globe(&HEXAGON_SPHERE, at, level, part))
}

fn draw_globe5(c: &mut Chance) -> Option<Entry> {
    let (at, level, part) = draw_five(c);
    Some(ask_globe(&PENTAGON_SPHERE, at, level, part))
}

/// A question: its name, the refusals that it can give, and how one is drawn.
type Kind = (&'static str, &'static [usize], fn(&mut Chance) -> Option<Entry>);

/// With the default frame, 1, 2, 8 and 9 are out of reach of `nearest` and `place`, and 8 of points on the sphere.
const KINDS: [Kind; 19] = [
    ("round", &[6, 9], draw_round),
    ("centre", &[10], draw_centre),
    ("meet", &[6, 13], draw_meet),
    ("turn", &[3, 10], draw_turn),
    ("step", &[3, 4, 5, 10], draw_step),
    ("cross", &[3, 4, 10], draw_cross),
    ("settle", &[3, 4, 10], draw_settle),
    ("direction", &[3], draw_direction),
    ("same", &[3, 4, 10, 11], draw_same),
    ("nearest", &[6, 7], draw_nearest),
    ("place", &[4, 6, 7], draw_place),
    ("corners", &[3, 4, 10], draw_corners),
    ("hexagon", &[3, 4, 5, 10, 11], draw_hexagon),
    ("pentagon", &[3, 4, 5, 10, 11, 12], draw_pentagon),
    ("root", &[6], draw_root),
    ("sphere", &[3, 4, 6], draw_sphere),
    ("globe6", &[3, 4, 5, 10, 11], draw_globe6),
    ("globe5", &[3, 4, 5, 10, 11, 12], draw_globe5),
    ("first", &[3, 4, 10, 11], draw_first),
];

/// Draws questions of one kind. The last places are kept for the refusals that are still to come.
fn sample((name, refusals, draw): Kind, seed: u64) -> Vec<Entry> {
    let (mut c, mut seen, mut all) = (Chance(seed), [0; 15], vec![]);
    while all.len() < MANY {
        let Some(entry) = draw(&mut c) else { continue };
        let n = entry.number;
        assert!(n == 0 || refusals.contains(&n), "{}: {}", entry.line, entry.answer);
        let lacking: usize = refusals.iter().map(|&r| LEAST.saturating_sub(seen[r])).sum();
        let wanted = n != 0 && seen[n] < LEAST;
        if wanted || all.len() + lacking < MANY {
            seen[n] += 1;
            all.push(entry);
        }
    }
    let each: Vec<String> = refusals.iter().map(|&n| format!("{n}: {}", seen[n])).collect();
    println!("{name}: {} recorded, {} answered, refused {}", all.len(), seen[0], each.join(", "));
    all
}

/// A checked place of document 01: the oracle says what the paper says.
fn checked(entry: Entry, paper: &str) -> Entry {
    assert_eq!(entry.answer, paper, "{}", entry.line);
    entry
}

/// The paper has the hexagons. The leftovers were worked out in fractions, each operation rounded once.
fn checked_rounding() -> Vec<Entry> {
    let (none, half) = ("0000000000000000 0000000000000000", "3fe0000000000000 0000000000000000");
    let (near_half, slanting) = ("3fdf5c28f5c28f5c 0000000000000000", "3fdadaf9e39d28cc 3fa41604a038f320");
    let paper = [
        (0., 0., "0 0 0", none), (1., 0., "1 0 0", none), (-1., 0., "0 1 1", none), (0.5, 0., "1 0 0", half), (-0.5, 0., "0 1 1", half),
        (0.49, 0., "0 0 0", near_half), (0.9, 0.9, "1 1 0", slanting), (0.9, -0.9, "1 0 1", slanting), (-0.9, 0.9, "0 1 0", slanting),
        (-0.9, -0.9, "0 0 1", slanting),
    ];
    let mut c = Chance(SEED - 1);
    let mut ask = |x, y, answer: &str| checked(ask_round(&mut c, x, y), answer);
    let mut all: Vec<Entry> = paper.into_iter().map(|(x, y, hexagon, left)| ask(x, y, &format!("{hexagon} {left}"))).collect();
    all.push(ask(33554432., 0., "refused 9 TooFar"));
    all
}

fn checked_crossing() -> Vec<Entry> {
    vec![
        checked(ask_cross((0, 1, 1, 0), 0, false, false), "0 1 1 0 None"),
        checked(ask_cross((0, 3, 0, 0), 0, false, false), "4 3 1 0 NewFace"),
        checked(ask_cross((0, 3, 3, 0), 0, true, false), "0 3 3 0 FaceEdge"),
        checked(ask_cross((0, 7, 2, 0), 0, true, false), "4 5 1 0 FaceEdge"),
        checked(ask_cross((5, 4, 4, 0), 0, true, false), "10 2 2 0 NewFace"),
        checked(ask_cross((0, 14, 0, 1), 2, false, true), "1 14 1 0 NewFace"),
        checked(ask_cross((0, 1, 1, 0), 1, false, false), "refused 4 BadLevel"),
        checked(ask_cross((0, 1, 1, 1), 0, false, false), "refused 10 NotReduced"),
        checked(ask_cross((20, 1, 1, 0), 0, false, false), "refused 3 BadFace"),
    ]
}

/// Document 01 names all corners at level 0, and the first one at level 1.
fn checked_corners() -> Vec<Entry> {
    let odd = ask_corners((0, 1, 0, 0), 1);
    assert!(odd.answer.starts_with("2 14 7 0 "), "{}", odd.answer);
    vec![checked(ask_corners((0, 1, 0, 0), 0), "0 5 1 0 4 2 0 2 1 0 2 0 1 4 0 2 5 0 1"), odd]
}

fn checked_places() -> Vec<Entry> {
    let walk = checked(ask_settle((0, 3, 0, 0), 0, false), "2 1 0 0 3");
    checked_rounding().into_iter().chain(checked_crossing()).chain(checked_corners()).chain([walk]).collect()
}

/// Roots and points on the sphere, as their lines are written.
fn checked_globe() -> Vec<Entry> {
    let mut c = Chance(SEED - 3);
    let roots = [
        ("root 4", 4., "4000000000000000"), ("root 2", 2., "3ff6a09e667f3bcd"), ("root 0", 0., "0000000000000000"),
        ("root -0", -0., "8000000000000000"), ("root -1", -1., "refused 6 BadNumber"), ("root 7ff0000000000000", f64::INFINITY, "refused 6 BadNumber"),
    ];
    let spheres = [("sphere 20 0 0 0", 20, 0, "refused 3 BadFace"), ("sphere 0 1 0 0", 0, 1, "refused 4 BadLevel")];
    let named = |line: &str, entry: Entry, answer: &str| checked(Entry { line: line.into(), ..entry }, answer);
    let mut all: Vec<Entry> = roots.into_iter().map(|(line, x, answer)| named(line, ask_root(&mut c, x), answer)).collect();
    all.extend(spheres.map(|(line, face, level, answer)| named(line, ask_sphere(&mut c, face, level, (0., 0.)), answer)));
    all
}

/// Names at level 0: within a face, on an edge, where five faces meet; and a place that lies outside its face.
fn checked_names() -> Vec<Entry> {
    vec![
        checked(ask_first((7, 1, 2, 0), 0), "7 1 2 0"),
        checked(ask_first((4, 4, 0, 2), 0), "0 4 2 0"),
        checked(ask_first((0, 4, 2, 0), 0), "0 4 2 0"),
        checked(ask_first((3, 6, 0, 0), 0), "0 6 0 0"),
        checked(ask_first((4, 0, 0, 6), 0), "0 0 6 0"),
        checked(ask_first((0, 7, 0, 0), 0), "refused 11 OutOfFace"),
        checked(ask_same(0, (4, 4, 0, 2), (0, 4, 2, 0)), "yes"),
        checked(ask_same(0, (4, 4, 0, 2), (0, 2, 4, 0)), "no"),
    ]
}

/// Lines that no question is written as.
fn unreadable() -> Vec<Entry> {
    let long = format!("centre 1 0 0{}", " 0".repeat(294));
    assert_eq!(long.len(), 600);
    let lines = [
        "", " ", "ask 0 0", "round", "round 0", "round 0 0 0", "direction 0 1 2", "round  0 0", "round 0  0", " round 0 0", "round 0 0 ",
        "direction 00 1", "centre 01 0 0", "round 00.5 0", "round 0.1e0 0", "round 0.500000000000000 0", "round .5 0", "round 5. 0",
        "round +1 0", "round 1e3 0", "round 3ff 0", "round --1 0", "round - 0", "centre -1 0 0", "direction -1 0", "direction 4294967296 0",
        "direction 99999999999999999999 0", "centre 1.0 0 0", "round 0\r 0", "round 0 0\r\r", "\r", "direction 0\t1", "Round 0 0", "DIRECTION 0 1",
        "cross 0 0 P 1 1 0 no", "cross 0 0 p 1 1 0 maybe", "cross 0 0 p 1 1 0", "turn 0 1 1 0 left", "step 0 0 p 1 1 0", "same 0 0 1 1 0 0 1 1",
        "meet 0 0 1 1 0 1 1", "nearest 1 0", "place 0 1 0", "place 0.5 1 0 0", "corners 0 0 1 0", "hexagon 0 0 0 0 0 0", "roundx 0 0", &long,
        "root", "root 4 4", "root  4", "root +4", "Root 4", "sphere 0 0 0", "sphere 0 0 0 0 0", "sphere 0 0.5 0 0", "globe6 0 0 0 0 0 0",
        "globe5 0 0 0 0 0 0 0 0", "globe 0 0 0 0 0 0 6", "globe7 0 0 0 0 0 0 6", "same 0 0 1 1 0 0 1 1 0 0", "same s 0 1 1 0 0 1 1 0",
        "same 0.5 0 1 1 0 0 1 1 0", "first 0 0 1 1", "first 0 0 1 1 0 0", "first 0 0 s 1 1 0", "first 0 -2 1 1 0", "First 0 0 1 1 0",
    ];
    lines.into_iter().map(|line| Entry { line: line.into(), number: 14, answer: refused(14) }).collect()
}

/// Lines that can just be read: all digits that a number or a decimal may have, and digits that are a double's bits.
fn just_readable() -> Vec<Entry> {
    let said = |line: &str, entry: Entry| Entry { line: line.into(), ..entry };
    let mut c = Chance(SEED - 1);
    vec![
        said("direction 4294967295 0", ask_direction(u32::MAX, 0)),
        said("centre 4294967295 0 0", ask_centre((u32::MAX, 0, 0))),
        said("round 0.50000000000000 -2.75", ask_round(&mut c, 0.5, -2.75)),
        said("round -33554431.5000000 33554431", ask_round(&mut c, -33554431.5, 33554431.)),
        said("round 999999999999999 0", ask_round(&mut c, 999999999999999., 0.)),
        said("round 4000000000000000 0000000000000000", ask_round(&mut c, 2., 0.)),
        said("round 7ff8000000000000 0", ask_round(&mut c, f64::NAN, 0.)),
        said("round 0.1 -0.1", ask_round(&mut c, 0.1, -0.1)),
        said("round 0 0\r", ask_round(&mut c, 0., 0.)),
    ]
}

/// A decimal without a leading zero: up to 15 digits in all, the point anywhere or nowhere.
fn any_decimal(c: &mut Chance) -> String {
    let sign = if c.below(2) == 0 { "" } else { "-" };
    let digits = 1 + c.below(15) as u32;
    let number = c.bits() % 10u64.pow(digits);
    let after = (c.below(u64::from(digits)) as usize).min(14);
    let word = format!("{number:0width$}", width = after + 1);
    let (whole, rest) = word.split_at(word.len() - after);
    if after == 0 { format!("{sign}{whole}") } else { format!("{sign}{whole}.{rest}") }
}

/// Decimals of every length. The meeting of an upright line with a level one has the upright line's x, so that its bits show
/// how the decimal was rounded; Rust's own reading, which is correctly rounded, says how it should be.
fn decimals() -> Vec<Entry> {
    let mut c = Chance(SEED - 2);
    (0..MANY)
        .map(|_| {
            let word = any_decimal(&mut c);
            let x: f64 = word.parse().expect("a decimal");
            let entry = ask_meet(&mut c, [x, -1., x, 1., -8., 0., 8., 0.]);
            Entry { line: format!("meet {word} -1 {word} 1 -8 0 8 0"), ..entry }
        })
        .collect()
}

fn lines(entries: &[Entry], part: impl Fn(&Entry) -> &str) -> String {
    entries.iter().map(|e| format!("{}\n", part(e))).collect()
}

/// Writes `stdin` and `stdout` into a folder.
pub fn run(folder: &Path) {
    let mut all = checked_places();
    all.extend(checked_globe());
    all.extend(checked_names());
    all.extend(unreadable());
    all.extend(just_readable());
    all.extend(decimals());
    println!("{} checked places, lines of every spelling and decimals", all.len());
    for (kind, seed) in KINDS.into_iter().zip(SEED..) {
        all.extend(sample(kind, seed));
    }
    let (asked, answered) = (lines(&all, |e| &e.line), lines(&all, |e| &e.answer));
    println!("{} lines, {} and {} bytes", all.len(), asked.len(), answered.len());
    fs::create_dir_all(folder).expect("a folder to write into");
    fs::write(folder.join("stdin"), asked).expect("the questions written");
    fs::write(folder.join("stdout"), answered).expect("the answers written");
}
