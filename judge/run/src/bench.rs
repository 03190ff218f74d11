//! Times both sides in one process on the same inputs: nanoseconds for an answer, best and median of the passes.
use crate::ours::{At, Left, Outline, SphereOutline, Vector, bare};
use crate::{borders, chance::Chance, margin, names, places, plain, regions, round, sphere, vectors};
use h3o::coord::{CoordIJK, FaceIJK, Vec2d, Vec3d};
use h3o::face::FRAME;
use h3o::{Boundary, ExtendedResolution, Face, Resolution, Vertex, plane};
use std::collections::HashSet;
use std::hint::black_box;
use std::time::Instant;

const PASSES: usize = 11;
const MANY: usize = 1_000_000;

/// What a question cost, in nanoseconds an answer, pass by pass.
struct Cost(Vec<f64>);

impl Cost {
    fn best(&self) -> f64 {
        self.0.iter().copied().fold(f64::INFINITY, f64::min)
    }
    fn median(&self) -> f64 {
        let mut all = self.0.clone();
        all.sort_by(f64::total_cmp);
        all[all.len() / 2]
    }
}

fn once(answers: usize, work: &mut impl FnMut()) -> f64 {
    let begun = Instant::now();
    work();
    begun.elapsed().as_nanos() as f64 / answers as f64
}

/// One row of the table: the two sides take turns, so that both meet the same machine.
fn row(name: &str, answers: usize, mut ours: impl FnMut(), mut theirs: impl FnMut()) {
    let (mut a, mut b) = (Cost(vec![]), Cost(vec![]));
    for _ in 0..PASSES {
        a.0.push(once(answers, &mut ours));
        b.0.push(once(answers, &mut theirs));
    }
    println!(
        "| {name} | {:.1} ({:.1}) | {:.1} ({:.1}) | {:.2} | {:.2} |",
        a.best(), a.median(), b.best(), b.median(), a.best() / b.best(), a.median() / b.median()
    );
}

fn uniform(n: usize) -> Vec<Vector> {
    let mut chance = Chance(9);
    std::iter::repeat_with(|| vectors::uniform(&mut chance)).take(n).collect()
}

fn vec3d([x, y, z]: Vector) -> Vec3d {
    Vec3d::new(x, y, z)
}

fn place() {
    let input = uniform(MANY);
    let (mut rows, mut refused, mut theirs) = (vec![0i32; 4 * MANY], [0u64], vec![FaceIJK::default(); MANY]);
    row(
        "place: a batch of a million uniform vectors, level 9", MANY,
        || {
            let number = bare::batch(&FRAME, 9, input.as_flattened(), &mut rows, 0, &mut refused);
            assert_eq!((number, refused[0]), (0, 0));
            black_box(&rows);
        },
        || {
            for (p, v) in theirs.iter_mut().zip(&input) {
                *p = FaceIJK::from_vec3d(vec3d(*v), Resolution(9));
            }
            black_box(&theirs);
        },
    );
}

/// One vector a call, as a server asks it when one receiver reports.
fn place_one() {
    let input = uniform(MANY);
    row(
        "place, one vector, level 9", MANY,
        || {
            for &v in &input {
                let (mut out, mut left) = ([0u32; 4], [0f64; 2]);
                black_box(bare::place(&FRAME, v, 9, &mut out, &mut left));
                black_box((&out, &left));
            }
        },
        || {
            for &v in &input {
                black_box(FaceIJK::from_vec3d(vec3d(v), Resolution(black_box(9))));
            }
        },
    );
}

fn plane_points() -> Vec<(f64, f64)> {
    let mut chance = Chance(10);
    (0..MANY).map(|_| (chance.unit() * 20000., chance.unit() * 20000.)).collect()
}

/// The Rust keeps its leftovers to itself.
fn round() {
    let points = plane_points();
    row(
        "rounding", MANY,
        || {
            for &p in &points {
                let (mut out, mut left) = ([0u32; 3], [0f64; 2]);
                black_box(bare::round(p, &mut out, &mut left));
                black_box((&out, &left));
            }
        },
        || {
            for &(x, y) in &points {
                black_box(CoordIJK::from(Vec2d::new(x, y)));
            }
        },
    );
}

/// The leftovers of the same points. The source has no margin: beside ours stands the judge's own rule, in plain Rust.
fn margin() {
    let lefts: Vec<Left> = plane_points().into_iter().map(|(x, y)| round::rounded(Vec2d::new(x, y)).1).collect();
    row(
        "margin, beside the judge's rule", MANY,
        || {
            for &left in &lefts {
                let mut out = [0f64];
                black_box(bare::margin(left, &mut out));
                black_box(out);
            }
        },
        || {
            for &left in &lefts {
                black_box(margin::oracle(black_box(left)));
            }
        },
    );
}

fn nearest() {
    let input = uniform(MANY);
    row(
        "nearest face, one vector", MANY,
        || {
            for &v in &input {
                let (mut face, mut distance) = ([0u32], [0f64]);
                black_box(bare::nearest(&FRAME, v, &mut face, &mut distance));
                black_box((face, distance));
            }
        },
        || {
            for &v in &input {
                black_box(vec3d(v).closest_face());
            }
        },
    );
}

/// The plane point on a face that is known, as a border's drawing asks for it; the Rust is given the distance too.
fn plane_point() {
    let known: Vec<(Vector, Face, f64)> = uniform(MANY)
        .into_iter()
        .map(|v| {
            let (face, distance) = vec3d(v).closest_face();
            (v, face, distance)
        })
        .collect();
    row(
        "plane point on a known face, level 9", MANY,
        || {
            for &(v, face, _) in &known {
                let mut out = [0f64; 2];
                black_box(bare::plane_point(&FRAME, usize::from(face) as u32, 9, v, &mut out));
                black_box(out);
            }
        },
        || {
            for &(v, face, distance) in &known {
                black_box(Vec2d::from_vec3d(vec3d(v), Resolution(black_box(9)), face, distance));
            }
        },
    );
}

/// Places with two coordinates up to 2^20, on all faces.
fn far_places(n: usize) -> Vec<At> {
    let mut chance = Chance(11);
    (0..n)
        .map(|at| {
            let (a, b) = (chance.below(1 << 20) as u32, chance.below(1 << 20) as u32);
            let face = (at % 20) as u32;
            [(face, a, b, 0), (face, 0, a, b), (face, b, 0, a)][at % 3]
        })
        .collect()
}

fn settle(name: &str, level: u32, n: usize) {
    let places = far_places(n);
    row(
        name, n,
        || {
            for &at in &places {
                let mut out = [0u64; 5];
                black_box(bare::settle(at, level, true, &mut out));
                black_box(out);
            }
        },
        || {
            for &at in &places {
                let mut p = places::place(at);
                p.adjust_pentagon_vertex_overage(ExtendedResolution(level as u8));
                black_box(p);
            }
        },
    );
}

/// The source's method for a whole boundary.
type Walked = fn(&plane::FaceIJK, Resolution, Vertex, u8) -> Boundary;

fn boundary(name: &str, cells: &[At], level: u32, sides: u32, (ours, theirs): (Outline, Walked)) {
    let on_plane: Vec<plane::FaceIJK> = cells.iter().map(|&at| borders::on_plane(at)).collect();
    row(
        name, cells.len(),
        || {
            for &at in cells {
                let (mut marks, mut points) = ([0u32; 25], [0f64; 24]);
                assert_eq!(ours(at, level, (0, sides), &mut marks, &mut points), 0);
                black_box((&marks, &points));
            }
        },
        || {
            for p in &on_plane {
                black_box(theirs(p, Resolution(black_box(level as u8)), Vertex(black_box(0)), black_box(sides as u8)));
            }
        },
    );
}

/// Cells of uniform vectors.
fn cells(level: u32) -> Vec<At> {
    let cell = |v: Vector| {
        let p = FaceIJK::from_vec3d(vec3d(v), Resolution(level as u8));
        (usize::from(p.face) as u32, p.coord.i() as u32, p.coord.j() as u32, p.coord.k() as u32)
    };
    // a cell over an edge of its face has no boundary there
    let inside = |&at: &At| {
        let (s, m) = borders::sum_and_limit(at, level);
        s <= m
    };
    uniform(MANY).into_iter().map(cell).filter(inside).collect()
}

fn hexagons(name: &str, level: u32) {
    boundary(name, &cells(level), level, 6, (bare::hexagon, plane::FaceIJK::hexagon_boundary));
}

/// At an odd level the source answers of a pentagon that is named by the corner on its face's i-axis, and of no other.
fn pentagon_cells() -> Vec<At> {
    let centres: Vec<At> = (0..20).map(|face| borders::pentagon_centre(face, 0, 9)).collect();
    centres.into_iter().cycle().take(MANY).collect()
}

fn pentagons() {
    boundary("pentagon boundary, level 9", &pentagon_cells(), 9, 5, (bare::pentagon, plane::FaceIJK::pentagon_boundary));
}

/// The source's method for a whole boundary, with its projection.
type Projected = fn(&FaceIJK, Resolution, Vertex, u8) -> Boundary;

fn globe(name: &str, cells: &[At], sides: u32, (ours, theirs): (SphereOutline, Projected)) {
    let places: Vec<FaceIJK> = cells.iter().map(|&at| places::place(at)).collect();
    row(
        name, cells.len(),
        || {
            for &at in cells {
                let (mut marks, mut points) = ([0u32; 25], [0f64; 36]);
                assert_eq!(ours(&FRAME, at, 9, (0, sides), &mut marks, &mut points), 0);
                black_box((&marks, &points));
            }
        },
        || {
            for p in &places {
                black_box(theirs(p, Resolution(black_box(9)), Vertex(black_box(0)), black_box(sides as u8)));
            }
        },
    );
}

fn hexagons_on_sphere() {
    globe("hexagon boundary on the sphere, level 9", &cells(9), 6, (bare::hexagon_sphere, FaceIJK::hexagon_boundary));
}

fn pentagons_on_sphere() {
    globe("pentagon boundary on the sphere, level 9", &pentagon_cells(), 5, (bare::pentagon_sphere, FaceIJK::pentagon_boundary));
}

/// One point of a face a call, as a drawing asks for it.
fn point_on_sphere() {
    let mut chance = Chance(32);
    let points: Vec<(u32, (f64, f64))> = (0..MANY).map(|_| (chance.below(20) as u32, sphere::inner_point(&mut chance, 10))).collect();
    row(
        "point on the sphere, level 10", MANY,
        || {
            for &(face, point) in &points {
                let mut out = [0f64; 3];
                black_box(bare::sphere(&FRAME, face, 10, point, &mut out));
                black_box(out);
            }
        },
        || {
            for &(face, (x, y)) in &points {
                let (at, level) = (Vec2d::new(x, y), ExtendedResolution(black_box(10)));
                black_box(Vec3d::from_vec2d(at, Face::new_unchecked(face), level, black_box(true)));
            }
        },
    );
}

/// The machine's own root has an instruction.
fn root() {
    let mut chance = Chance(33);
    let numbers: Vec<f64> = (0..MANY).map(|_| f64::from_bits(chance.below(2047 << 52))).collect();
    row(
        "root", MANY,
        || {
            for &x in &numbers {
                let mut out = [0f64];
                black_box(bare::root(x, &mut out));
                black_box(out);
            }
        },
        || {
            for &x in &numbers {
                black_box(black_box(x).sqrt());
            }
        },
    );
}

/// The grid level at which names are asked for.
const NAMED: u32 = 10;

/// Points of all faces on two of their axes, `sum` being i + j + k and `first` how much of it the first axis has.
fn points(sum: u32, mut first: impl FnMut(&mut Chance) -> u64) -> Vec<At> {
    let mut chance = Chance(38);
    (0..MANY)
        .map(|n| {
            let a = first(&mut chance) as u32;
            borders::along(chance.below(3), (n % 20) as u32, a, sum - a)
        })
        .collect()
}

fn inner_points() -> Vec<At> {
    let m = places::limit(NAMED, true);
    points(m / 2, |c| c.below(u64::from(m) / 2))
}

fn edge_points() -> Vec<At> {
    let m = places::limit(NAMED, true);
    points(m, |c| 1 + c.below(u64::from(m) - 1))
}

fn face_corners() -> Vec<At> {
    let m = places::limit(NAMED, true);
    points(m, |_| m.into())
}

/// The source has no names: beside ours stands the judge's own search over the steps.
fn first_name(name: &str, corners: &[At]) {
    row(
        name, corners.len(),
        || {
            for &at in corners {
                let mut out = [0u32; 4];
                black_box(bare::first_name(at, NAMED, &mut out));
                black_box(out);
            }
        },
        || {
            for &at in corners {
                black_box(names::oracle_first(black_box(at), NAMED));
            }
        },
    );
}

/// Points of edges with the other names that they have there.
fn same_corner() {
    let pairs: Vec<(At, At)> = edge_points().into_iter().map(|at| (at, names::names(at, NAMED)[1])).collect();
    row(
        "same corner, both names of a point on an edge, beside the judge's search", pairs.len(),
        || {
            for &(one, other) in &pairs {
                let mut out = [0u32];
                black_box(bare::same_corner(one, other, NAMED, &mut out));
                black_box(out);
            }
        },
        || {
            for &(one, other) in &pairs {
                black_box(names::oracle_same(black_box(one), other, NAMED));
            }
        },
    );
}

/// Places of uniform vectors at level 9, none twice, in the order of chance.
fn region_places(n: usize) -> Vec<At> {
    let (mut chance, mut seen) = (Chance(49), HashSet::new());
    let cell = |v: Vector| At::from(places::numbers(FaceIJK::from_vec3d(vec3d(v), Resolution(9))).map(|n| n as u32));
    std::iter::repeat_with(|| cell(vectors::uniform(&mut chance))).filter(|&at| seen.insert(at)).take(n).collect()
}

/// A million places of a region, and as many questions by chance, half of them for places that it has not.
fn region() -> (Vec<At>, Vec<At>) {
    let (mut places, mut chance) = (region_places(2 * MANY), Chance(50));
    let others = places.split_off(MANY);
    let asked = (0..MANY).map(|n| [places[n], others[n]][chance.below(2) as usize]).collect();
    places.sort_unstable();
    (places, asked)
}

/// One place a call. The Rust looks for it among the sorted places.
fn region_has() {
    let (places, asked) = region();
    let list = regions::written(&places, 9);
    let places: Vec<plain::Place> = places.into_iter().map(plain::Place::from).collect();
    row(
        "membership in a region of a million records", MANY,
        || {
            for &at in &asked {
                let mut out = [0u32];
                black_box(bare::region_has(&list, at, &mut out));
                black_box(out);
            }
        },
        || {
            for &at in &asked {
                black_box(places.binary_search(&plain::Place::from(at)).is_ok());
            }
        },
    );
}

/// The times are a record's.
fn region_check() {
    let list = regions::written(&region().0, 9);
    row(
        "check of a region of a million records, a record", MANY,
        || {
            let mut out = [0u32; 2];
            assert_eq!((bare::region_check(black_box(&list), &mut out), out), (0, [9, MANY as u32]));
        },
        || assert_eq!(plain::check(black_box(&list)), Some((9, MANY as u32))),
    );
}

fn region_write() {
    let rows = regions::rows(&region().0);
    let (mut ours, mut theirs) = (vec![0; regions::TRAILER + 4 * rows.len()], vec![0; regions::TRAILER + 4 * rows.len()]);
    row(
        "writing a region of a million records, a record", MANY,
        || assert_eq!(bare::region_write(9, black_box(&rows), black_box(&mut ours)), 0),
        || assert_eq!(plain::write(9, black_box(&rows), black_box(&mut theirs)), 0),
    );
    assert!(ours == theirs);
}

/// The table's rows in their order, each under the question's name.
const ROWS: [(&str, fn()); 22] = [
    ("place", place),
    ("place", place_one),
    ("round", round),
    ("margin", margin),
    ("nearest", nearest),
    ("plane point", plane_point),
    ("settle", || settle("settling, level 10, coordinates to 2^20", 10, MANY)),
    ("settle", || settle("settling, level 0, coordinates to 2^20", 0, 300)),
    ("hexagon", || hexagons("hexagon boundary, level 8", 8)),
    ("hexagon", || hexagons("hexagon boundary, level 9", 9)),
    ("pentagon", pentagons),
    ("hexagon sphere", hexagons_on_sphere),
    ("pentagon sphere", pentagons_on_sphere),
    ("sphere", point_on_sphere),
    ("root", root),
    ("same corner", same_corner),
    ("first name", || first_name("first name, within a face, beside the judge's search", &inner_points())),
    ("first name", || first_name("first name, on an edge, beside the judge's search", &edge_points())),
    ("first name", || first_name("first name, at a corner of a face, beside the judge's search", &face_corners())),
    ("region", region_has),
    ("region", region_check),
    ("region", region_write),
];

/// Prints the table, or its rows for the questions named.
pub fn run(names: &[String]) {
    println!("| question | ours, best (median) | Rust, best (median) | ratio of the best | of the medians |");
    println!("|---|---|---|---|---|");
    for (_, timed) in ROWS.iter().filter(|row| names.is_empty() || names.iter().any(|n| n == row.0)) {
        timed();
    }
}
