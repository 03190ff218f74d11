//! The proved library's C face. Nothing checks these declarations against its source but the runs themselves.

unsafe extern "C" {
    fn heddleplume_raise(level: u32, out: *mut u32, len: usize) -> u32;
    fn heddleplume_grid(level: u32, substrate: bool, out: *mut u32, len: usize) -> u32;
    fn heddleplume_reduce(i: u32, j: u32, k: u32, out: *mut u32, len: usize) -> u32;
    fn heddleplume_map(map: u32, i: u32, j: u32, k: u32, out: *mut u32, len: usize) -> u32;
    fn heddleplume_alike(x: f64, y: f64, other_x: f64, other_y: f64, out: *mut u32, len: usize) -> u32;
    fn heddleplume_plane_point(
        frame: *const f64, frame_len: usize, face: u32, level: u32, x: f64, y: f64, z: f64, out: *mut f64, len: usize,
    ) -> u32;
    fn heddleplume_round(x: f64, y: f64, out: *mut u32, len: usize, left: *mut f64, left_len: usize) -> u32;
    fn heddleplume_margin(r1: f64, r2: f64, out: *mut f64, len: usize) -> u32;
    fn heddleplume_centre(i: u32, j: u32, k: u32, out: *mut f64, len: usize) -> u32;
    fn heddleplume_meet(lines: *const f64, lines_len: usize, out: *mut f64, len: usize) -> u32;
    fn heddleplume_direction(from: u32, to: u32, out: *mut u32, len: usize) -> u32;
    fn heddleplume_turn(face: u32, i: u32, j: u32, k: u32, clockwise: bool, out: *mut u32, len: usize) -> u32;
    fn heddleplume_step(face: u32, i: u32, j: u32, k: u32, level: u32, substrate: bool, edge: u32, out: *mut u32, len: usize) -> u32;
    fn heddleplume_cross(face: u32, i: u32, j: u32, k: u32, level: u32, substrate: bool, turn: bool, out: *mut u32, len: usize) -> u32;
    fn heddleplume_settle(face: u32, i: u32, j: u32, k: u32, level: u32, substrate: bool, out: *mut u64, len: usize) -> u32;
    fn heddleplume_same_corner(
        face: u32, i: u32, j: u32, k: u32, other_face: u32, other_i: u32, other_j: u32, other_k: u32, level: u32, out: *mut u32, len: usize,
    ) -> u32;
    fn heddleplume_first_name(face: u32, i: u32, j: u32, k: u32, level: u32, out: *mut u32, len: usize) -> u32;
    fn heddleplume_nearest(
        frame: *const f64, frame_len: usize, x: f64, y: f64, z: f64, face: *mut u32, face_len: usize, distance: *mut f64, distance_len: usize,
    ) -> u32;
    fn heddleplume_place(
        frame: *const f64, frame_len: usize, x: f64, y: f64, z: f64, level: u32, out: *mut u32, len: usize, left: *mut f64, left_len: usize,
    ) -> u32;
    fn heddleplume_batch(
        frame: *const f64, frame_len: usize, level: u32, input: *const f64, input_len: usize, out: *mut i32, out_len: usize, first: usize,
        refused: *mut u64, refused_len: usize,
    ) -> u32;
    fn heddleplume_corners(face: u32, i: u32, j: u32, k: u32, level: u32, out: *mut u32, len: usize) -> u32;
    fn heddleplume_hexagon(
        face: u32, i: u32, j: u32, k: u32, level: u32, start: u32, length: u32, marks: *mut u32, marks_len: usize, points: *mut f64, points_len: usize,
    ) -> u32;
    fn heddleplume_pentagon(
        face: u32, i: u32, j: u32, k: u32, level: u32, start: u32, length: u32, marks: *mut u32, marks_len: usize, points: *mut f64, points_len: usize,
    ) -> u32;
    fn heddleplume_frame(out: *mut f64, len: usize) -> u32;
    fn heddleplume_root(x: f64, out: *mut f64, len: usize) -> u32;
    fn heddleplume_sphere(
        frame: *const f64, frame_len: usize, face: u32, level: u32, x: f64, y: f64, out: *mut f64, len: usize,
    ) -> u32;
    fn heddleplume_hexagon_sphere(
        frame: *const f64, frame_len: usize, face: u32, i: u32, j: u32, k: u32, level: u32, start: u32, length: u32, marks: *mut u32,
        marks_len: usize, points: *mut f64, points_len: usize,
    ) -> u32;
    fn heddleplume_pentagon_sphere(
        frame: *const f64, frame_len: usize, face: u32, i: u32, j: u32, k: u32, level: u32, start: u32, length: u32, marks: *mut u32,
        marks_len: usize, points: *mut f64, points_len: usize,
    ) -> u32;
    fn heddleplume_region_write(level: u32, rows: *const i32, rows_len: usize, out: *mut u8, len: usize) -> u32;
    fn heddleplume_region_check(list: *const u8, list_len: usize, out: *mut u32, len: usize) -> u32;
    fn heddleplume_region_record(list: *const u8, list_len: usize, number: u32, out: *mut u32, len: usize) -> u32;
    fn heddleplume_region_has(
        list: *const u8, list_len: usize, face: u32, i: u32, j: u32, k: u32, out: *mut u32, len: usize,
    ) -> u32;
}

/// The C functions over slices of any length.
pub mod bare {
    use super::*;

    pub fn raise(level: u32, out: &mut [u32]) -> u32 {
        unsafe { heddleplume_raise(level, out.as_mut_ptr(), out.len()) }
    }
    pub fn grid(level: u32, substrate: bool, out: &mut [u32]) -> u32 {
        unsafe { heddleplume_grid(level, substrate, out.as_mut_ptr(), out.len()) }
    }
    pub fn reduce((i, j, k): Triple, out: &mut [u32]) -> u32 {
        unsafe { heddleplume_reduce(i, j, k, out.as_mut_ptr(), out.len()) }
    }
    pub fn map(map: u32, (i, j, k): Triple, out: &mut [u32]) -> u32 {
        unsafe { heddleplume_map(map, i, j, k, out.as_mut_ptr(), out.len()) }
    }
    pub fn alike((x, y): (f64, f64), (other_x, other_y): (f64, f64), out: &mut [u32]) -> u32 {
        unsafe { heddleplume_alike(x, y, other_x, other_y, out.as_mut_ptr(), out.len()) }
    }
    pub fn plane_point(frame: &[f64], face: u32, level: u32, [x, y, z]: Vector, out: &mut [f64]) -> u32 {
        unsafe { heddleplume_plane_point(frame.as_ptr(), frame.len(), face, level, x, y, z, out.as_mut_ptr(), out.len()) }
    }
    pub fn round((x, y): (f64, f64), out: &mut [u32], left: &mut [f64]) -> u32 {
        unsafe { heddleplume_round(x, y, out.as_mut_ptr(), out.len(), left.as_mut_ptr(), left.len()) }
    }
    pub fn margin([r1, r2]: Left, out: &mut [f64]) -> u32 {
        unsafe { heddleplume_margin(r1, r2, out.as_mut_ptr(), out.len()) }
    }
    pub fn centre((i, j, k): (u32, u32, u32), out: &mut [f64]) -> u32 {
        unsafe { heddleplume_centre(i, j, k, out.as_mut_ptr(), out.len()) }
    }
    pub fn meet(lines: &[f64], out: &mut [f64]) -> u32 {
        unsafe { heddleplume_meet(lines.as_ptr(), lines.len(), out.as_mut_ptr(), out.len()) }
    }
    pub fn direction(from: u32, to: u32, out: &mut [u32]) -> u32 {
        unsafe { heddleplume_direction(from, to, out.as_mut_ptr(), out.len()) }
    }
    pub fn turn((f, i, j, k): At, clockwise: bool, out: &mut [u32]) -> u32 {
        unsafe { heddleplume_turn(f, i, j, k, clockwise, out.as_mut_ptr(), out.len()) }
    }
    pub fn step((f, i, j, k): At, level: u32, substrate: bool, edge: u32, out: &mut [u32]) -> u32 {
        unsafe { heddleplume_step(f, i, j, k, level, substrate, edge, out.as_mut_ptr(), out.len()) }
    }
    pub fn cross((f, i, j, k): At, level: u32, substrate: bool, turn: bool, out: &mut [u32]) -> u32 {
        unsafe { heddleplume_cross(f, i, j, k, level, substrate, turn, out.as_mut_ptr(), out.len()) }
    }
    pub fn same_corner((f, i, j, k): At, (g, x, y, z): At, level: u32, out: &mut [u32]) -> u32 {
        unsafe { heddleplume_same_corner(f, i, j, k, g, x, y, z, level, out.as_mut_ptr(), out.len()) }
    }
    pub fn first_name((f, i, j, k): At, level: u32, out: &mut [u32]) -> u32 {
        unsafe { heddleplume_first_name(f, i, j, k, level, out.as_mut_ptr(), out.len()) }
    }
    pub fn settle((f, i, j, k): At, level: u32, substrate: bool, out: &mut [u64]) -> u32 {
        unsafe { heddleplume_settle(f, i, j, k, level, substrate, out.as_mut_ptr(), out.len()) }
    }
    pub fn nearest(frame: &[f64], [x, y, z]: Vector, face: &mut [u32], distance: &mut [f64]) -> u32 {
        let (f, d) = ((face.as_mut_ptr(), face.len()), (distance.as_mut_ptr(), distance.len()));
        unsafe { heddleplume_nearest(frame.as_ptr(), frame.len(), x, y, z, f.0, f.1, d.0, d.1) }
    }
    pub fn place(frame: &[f64], [x, y, z]: Vector, level: u32, out: &mut [u32], left: &mut [f64]) -> u32 {
        let (o, l) = ((out.as_mut_ptr(), out.len()), (left.as_mut_ptr(), left.len()));
        unsafe { heddleplume_place(frame.as_ptr(), frame.len(), x, y, z, level, o.0, o.1, l.0, l.1) }
    }
    pub fn batch(frame: &[f64], level: u32, input: &[f64], out: &mut [i32], first: usize, refused: &mut [u64]) -> u32 {
        let (o, r) = ((out.as_mut_ptr(), out.len()), (refused.as_mut_ptr(), refused.len()));
        unsafe { heddleplume_batch(frame.as_ptr(), frame.len(), level, input.as_ptr(), input.len(), o.0, o.1, first, r.0, r.1) }
    }
    pub fn corners((f, i, j, k): At, level: u32, out: &mut [u32]) -> u32 {
        unsafe { heddleplume_corners(f, i, j, k, level, out.as_mut_ptr(), out.len()) }
    }
    pub fn hexagon((f, i, j, k): At, level: u32, (start, length): (u32, u32), marks: &mut [u32], points: &mut [f64]) -> u32 {
        let (m, p) = ((marks.as_mut_ptr(), marks.len()), (points.as_mut_ptr(), points.len()));
        unsafe { heddleplume_hexagon(f, i, j, k, level, start, length, m.0, m.1, p.0, p.1) }
    }
    pub fn pentagon((f, i, j, k): At, level: u32, (start, length): (u32, u32), marks: &mut [u32], points: &mut [f64]) -> u32 {
        let (m, p) = ((marks.as_mut_ptr(), marks.len()), (points.as_mut_ptr(), points.len()));
        unsafe { heddleplume_pentagon(f, i, j, k, level, start, length, m.0, m.1, p.0, p.1) }
    }
    pub fn frame(out: &mut [f64]) -> u32 {
        unsafe { heddleplume_frame(out.as_mut_ptr(), out.len()) }
    }
    pub fn root(x: f64, out: &mut [f64]) -> u32 {
        unsafe { heddleplume_root(x, out.as_mut_ptr(), out.len()) }
    }
    pub fn sphere(frame: &[f64], face: u32, level: u32, (x, y): (f64, f64), out: &mut [f64]) -> u32 {
        unsafe { heddleplume_sphere(frame.as_ptr(), frame.len(), face, level, x, y, out.as_mut_ptr(), out.len()) }
    }
    pub fn hexagon_sphere(
        frame: &[f64], (f, i, j, k): At, level: u32, (start, length): (u32, u32), marks: &mut [u32], points: &mut [f64],
    ) -> u32 {
        let (a, m, p) = ((frame.as_ptr(), frame.len()), (marks.as_mut_ptr(), marks.len()), (points.as_mut_ptr(), points.len()));
        unsafe { heddleplume_hexagon_sphere(a.0, a.1, f, i, j, k, level, start, length, m.0, m.1, p.0, p.1) }
    }
    pub fn pentagon_sphere(
        frame: &[f64], (f, i, j, k): At, level: u32, (start, length): (u32, u32), marks: &mut [u32], points: &mut [f64],
    ) -> u32 {
        let (a, m, p) = ((frame.as_ptr(), frame.len()), (marks.as_mut_ptr(), marks.len()), (points.as_mut_ptr(), points.len()));
        unsafe { heddleplume_pentagon_sphere(a.0, a.1, f, i, j, k, level, start, length, m.0, m.1, p.0, p.1) }
    }
    pub fn region_write(level: u32, rows: &[i32], out: &mut [u8]) -> u32 {
        unsafe { heddleplume_region_write(level, rows.as_ptr(), rows.len(), out.as_mut_ptr(), out.len()) }
    }
    pub fn region_check(list: &[u8], out: &mut [u32]) -> u32 {
        unsafe { heddleplume_region_check(list.as_ptr(), list.len(), out.as_mut_ptr(), out.len()) }
    }
    pub fn region_record(list: &[u8], number: u32, out: &mut [u32]) -> u32 {
        unsafe { heddleplume_region_record(list.as_ptr(), list.len(), number, out.as_mut_ptr(), out.len()) }
    }
    pub fn region_has(list: &[u8], (f, i, j, k): At, out: &mut [u32]) -> u32 {
        unsafe { heddleplume_region_has(list.as_ptr(), list.len(), f, i, j, k, out.as_mut_ptr(), out.len()) }
    }
}

/// What an entry gave back: the refusal's number, 0 for none, and what its lent slice then held.
#[derive(Debug, Clone, Copy, PartialEq, Eq)]
pub struct Said<const N: usize> {
    pub number: u32,
    pub values: [u64; N],
}

/// What stands in a lent slice before a call, to see that a refusal writes nothing and an answer nothing past its values.
pub const UNTOUCHED: u32 = 0xdead_beef;

impl<const N: usize> Said<N> {
    pub fn refused(number: u32) -> Self {
        Self { number, values: [UNTOUCHED.into(); N] }
    }
    pub fn done(values: [u64; N]) -> Self {
        Self { number: 0, values }
    }
}

/// Calls with a slice that is one longer than the values, and sees that the last element stays.
fn asked<const N: usize, const M: usize>(call: impl FnOnce(&mut [u32]) -> u32) -> Said<N> {
    const { assert!(M == N + 1) };
    let mut out = [UNTOUCHED; M];
    let number = call(&mut out);
    assert_eq!(out[N], UNTOUCHED, "an element past the values was written");
    Said { number, values: std::array::from_fn(|n| out[n].into()) }
}

/// The same for doubles, which are compared by their bits.
fn asked_doubles<const N: usize, const M: usize>(call: impl FnOnce(&mut [f64]) -> u32) -> Said<N> {
    const { assert!(M == N + 1) };
    let untouched = f64::from_bits(UNTOUCHED.into());
    let mut out = [untouched; M];
    let number = call(&mut out);
    assert_eq!(out[N].to_bits(), u64::from(UNTOUCHED), "an element past the values was written");
    Said { number, values: std::array::from_fn(|n| out[n].to_bits()) }
}

/// A place: face, i, j, k.
pub type At = (u32, u32, u32, u32);

/// A vector: x, y, z.
pub type Vector = [f64; 3];

/// The leftovers of a rounding: r1, r2.
pub type Left = [f64; 2];

/// Coordinates: i, j, k.
pub type Triple = (u32, u32, u32);

pub fn raise(level: u32) -> Said<1> {
    asked::<1, 2>(|out| bare::raise(level, out))
}

pub fn grid(level: u32, substrate: bool) -> Said<3> {
    asked::<3, 4>(|out| bare::grid(level, substrate, out))
}

pub fn reduce(at: Triple) -> Said<3> {
    asked::<3, 4>(|out| bare::reduce(at, out))
}

pub fn map(number: u32, at: Triple) -> Said<3> {
    asked::<3, 4>(|out| bare::map(number, at, out))
}

pub fn alike(a: (f64, f64), b: (f64, f64)) -> Said<1> {
    asked::<1, 2>(|out| bare::alike(a, b, out))
}

pub fn plane_point(frame: &[f64], face: u32, level: u32, v: Vector) -> Said<2> {
    asked_doubles::<2, 3>(|out| bare::plane_point(frame, face, level, v, out))
}

/// The hexagon, and the bits of the leftovers.
pub fn round(x: f64, y: f64) -> Said<5> {
    let mut hexagon = [UNTOUCHED; 4];
    let left = asked_doubles::<2, 3>(|left| bare::round((x, y), &mut hexagon, left));
    assert_eq!(hexagon[3], UNTOUCHED, "an element past the hexagon was written");
    let value = |n: usize| if n < 3 { hexagon[n].into() } else { left.values[n - 3] };
    Said { number: left.number, values: std::array::from_fn(value) }
}

pub fn margin(left: Left) -> Said<1> {
    asked_doubles::<1, 2>(|out| bare::margin(left, out))
}

pub fn centre(at: (u32, u32, u32)) -> Said<2> {
    asked_doubles::<2, 3>(|out| bare::centre(at, out))
}

pub fn meet(lines: &[f64]) -> Said<2> {
    asked_doubles::<2, 3>(|out| bare::meet(lines, out))
}

pub fn direction(from: u32, to: u32) -> Said<1> {
    asked::<1, 2>(|out| bare::direction(from, to, out))
}

pub fn turn(at: At, clockwise: bool) -> Said<4> {
    asked::<4, 5>(|out| bare::turn(at, clockwise, out))
}

pub fn step(at: At, level: u32, substrate: bool, edge: u32) -> Said<4> {
    asked::<4, 5>(|out| bare::step(at, level, substrate, edge, out))
}

pub fn cross(at: At, level: u32, substrate: bool, turn: bool) -> Said<5> {
    asked::<5, 6>(|out| bare::cross(at, level, substrate, turn, out))
}

pub fn settle(at: At, level: u32, substrate: bool) -> Said<5> {
    let mut out = [u64::from(UNTOUCHED); 6];
    let number = bare::settle(at, level, substrate, &mut out);
    assert_eq!(out[5], u64::from(UNTOUCHED), "an element past the values was written");
    Said { number, values: std::array::from_fn(|n| out[n]) }
}

pub fn same_corner(a: At, b: At, level: u32) -> Said<1> {
    asked::<1, 2>(|out| bare::same_corner(a, b, level, out))
}

pub fn first_name(at: At, level: u32) -> Said<4> {
    asked::<4, 5>(|out| bare::first_name(at, level, out))
}

pub fn nearest(frame: &[f64], v: Vector) -> Said<2> {
    let mut face = [UNTOUCHED; 2];
    let distance = asked_doubles::<1, 2>(|out| bare::nearest(frame, v, &mut face, out));
    assert_eq!(face[1], UNTOUCHED, "an element past the face was written");
    Said { number: distance.number, values: [face[0].into(), distance.values[0]] }
}

/// The place, and the bits of the leftovers.
pub fn place(frame: &[f64], v: Vector, level: u32) -> Said<6> {
    let mut place = [UNTOUCHED; 5];
    let left = asked_doubles::<2, 3>(|left| bare::place(frame, v, level, &mut place, left));
    assert_eq!(place[4], UNTOUCHED, "an element past the place was written");
    let value = |n: usize| if n < 4 { place[n].into() } else { left.values[n - 4] };
    Said { number: left.number, values: std::array::from_fn(value) }
}

/// How many rows of a batch were refused; the rows stand in `out`.
pub fn batch(frame: &[f64], level: u32, input: &[f64], out: &mut [i32], first: usize) -> Said<1> {
    let mut refused = [u64::from(UNTOUCHED); 2];
    let number = bare::batch(frame, level, input, out, first, &mut refused);
    assert_eq!(refused[1], u64::from(UNTOUCHED), "an element past the count was written");
    Said { number, values: [refused[0]] }
}

pub fn corners(at: At, level: u32) -> Said<19> {
    asked::<19, 20>(|out| bare::corners(at, level, out))
}

/// The marks (count, then face and mark twelve times), and the bits of the points (x and y twelve times).
pub type Border = Said<49>;

/// One of `bare::hexagon` and `bare::pentagon`.
pub type Outline = fn(At, u32, (u32, u32), &mut [u32], &mut [f64]) -> u32;

pub fn border(outline: Outline, at: At, level: u32, part: (u32, u32)) -> Border {
    let mut marks = [UNTOUCHED; 26];
    let points = asked_doubles::<24, 25>(|out| outline(at, level, part, &mut marks, out));
    assert_eq!(marks[25], UNTOUCHED, "an element past the marks was written");
    let value = |n: usize| if n < 25 { marks[n].into() } else { points.values[n - 25] };
    Said { number: points.number, values: std::array::from_fn(value) }
}

pub fn frame() -> Said<180> {
    asked_doubles::<180, 181>(bare::frame)
}

pub fn root(x: f64) -> Said<1> {
    asked_doubles::<1, 2>(|out| bare::root(x, out))
}

pub fn sphere(frame: &[f64], face: u32, level: u32, point: (f64, f64)) -> Said<3> {
    asked_doubles::<3, 4>(|out| bare::sphere(frame, face, level, point, out))
}

/// The marks (count, then face and mark twelve times), and the bits of the points on the sphere (x, y and z twelve times).
pub type Globe = Said<61>;

/// One of `bare::hexagon_sphere` and `bare::pentagon_sphere`.
pub type SphereOutline = fn(&[f64], At, u32, (u32, u32), &mut [u32], &mut [f64]) -> u32;

pub fn globe(outline: SphereOutline, frame: &[f64], at: At, level: u32, part: (u32, u32)) -> Globe {
    let mut marks = [UNTOUCHED; 26];
    let points = asked_doubles::<36, 37>(|out| outline(frame, at, level, part, &mut marks, out));
    assert_eq!(marks[25], UNTOUCHED, "an element past the marks was written");
    let value = |n: usize| if n < 25 { marks[n].into() } else { points.values[n - 25] };
    Said { number: points.number, values: std::array::from_fn(value) }
}

/// The level and the count.
pub fn region_check(list: &[u8]) -> Said<2> {
    asked::<2, 3>(|out| bare::region_check(list, out))
}

pub fn region_record(list: &[u8], number: u32) -> Said<4> {
    asked::<4, 5>(|out| bare::region_record(list, number, out))
}

pub fn region_has(list: &[u8], at: At) -> Said<1> {
    asked::<1, 2>(|out| bare::region_has(list, at, out))
}
