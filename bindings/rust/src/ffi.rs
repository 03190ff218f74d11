//! The C functions of include/heddleplume.h, each under a function on slices. All unsafe code of this crate stands here.
//!
//! Every reason below is the same one: the C function takes a pointer with a length, keeps neither, and reads and writes no more than
//! that length. A slice gives just such a pair; `&mut` overlaps nothing else. What the lengths must be, the library tests itself.

mod c {
    // The prototypes of include/heddleplume.h, parameter by parameter.
    #[rustfmt::skip]
    unsafe extern "C" {
        pub fn heddleplume_frame(out: *mut f64, out_len: usize) -> u32;
        pub fn heddleplume_nearest(frame: *const f64, frame_len: usize, x: f64, y: f64, z: f64, face: *mut u32, face_len: usize, distance: *mut f64, distance_len: usize) -> u32;
        pub fn heddleplume_plane_point(frame: *const f64, frame_len: usize, face: u32, level: u32, x: f64, y: f64, z: f64, out: *mut f64, out_len: usize) -> u32;
        pub fn heddleplume_place(frame: *const f64, frame_len: usize, x: f64, y: f64, z: f64, level: u32, out: *mut u32, out_len: usize, left: *mut f64, left_len: usize) -> u32;
        pub fn heddleplume_batch(frame: *const f64, frame_len: usize, level: u32, input: *const f64, input_len: usize, out: *mut i32, out_len: usize, first: usize, refused: *mut u64, refused_len: usize) -> u32;
        pub fn heddleplume_raise(level: u32, out: *mut u32, out_len: usize) -> u32;
        pub fn heddleplume_grid(level: u32, substrate: bool, out: *mut u32, out_len: usize) -> u32;
        pub fn heddleplume_reduce(i: u32, j: u32, k: u32, out: *mut u32, out_len: usize) -> u32;
        pub fn heddleplume_map(map: u32, i: u32, j: u32, k: u32, out: *mut u32, out_len: usize) -> u32;
        pub fn heddleplume_round(x: f64, y: f64, out: *mut u32, out_len: usize, left: *mut f64, left_len: usize) -> u32;
        pub fn heddleplume_margin(r1: f64, r2: f64, out: *mut f64, out_len: usize) -> u32;
        pub fn heddleplume_centre(i: u32, j: u32, k: u32, out: *mut f64, out_len: usize) -> u32;
        pub fn heddleplume_meet(lines: *const f64, lines_len: usize, out: *mut f64, out_len: usize) -> u32;
        pub fn heddleplume_alike(x: f64, y: f64, other_x: f64, other_y: f64, out: *mut u32, out_len: usize) -> u32;
        pub fn heddleplume_direction(from: u32, to: u32, out: *mut u32, out_len: usize) -> u32;
        pub fn heddleplume_turn(face: u32, i: u32, j: u32, k: u32, clockwise: bool, out: *mut u32, out_len: usize) -> u32;
        pub fn heddleplume_step(face: u32, i: u32, j: u32, k: u32, level: u32, substrate: bool, edge: u32, out: *mut u32, out_len: usize) -> u32;
        pub fn heddleplume_cross(face: u32, i: u32, j: u32, k: u32, level: u32, substrate: bool, turn: bool, out: *mut u32, out_len: usize) -> u32;
        pub fn heddleplume_settle(face: u32, i: u32, j: u32, k: u32, level: u32, substrate: bool, out: *mut u64, out_len: usize) -> u32;
        pub fn heddleplume_same_corner(face: u32, i: u32, j: u32, k: u32, other_face: u32, other_i: u32, other_j: u32, other_k: u32, level: u32, out: *mut u32, out_len: usize) -> u32;
        pub fn heddleplume_first_name(face: u32, i: u32, j: u32, k: u32, level: u32, out: *mut u32, out_len: usize) -> u32;
        pub fn heddleplume_corners(face: u32, i: u32, j: u32, k: u32, level: u32, out: *mut u32, out_len: usize) -> u32;
        pub fn heddleplume_hexagon(face: u32, i: u32, j: u32, k: u32, level: u32, start: u32, length: u32, marks: *mut u32, marks_len: usize, points: *mut f64, points_len: usize) -> u32;
        pub fn heddleplume_pentagon(face: u32, i: u32, j: u32, k: u32, level: u32, start: u32, length: u32, marks: *mut u32, marks_len: usize, points: *mut f64, points_len: usize) -> u32;
        pub fn heddleplume_root(x: f64, out: *mut f64, out_len: usize) -> u32;
        pub fn heddleplume_sphere(frame: *const f64, frame_len: usize, face: u32, level: u32, x: f64, y: f64, out: *mut f64, out_len: usize) -> u32;
        pub fn heddleplume_hexagon_sphere(frame: *const f64, frame_len: usize, face: u32, i: u32, j: u32, k: u32, level: u32, start: u32, length: u32, marks: *mut u32, marks_len: usize, points: *mut f64, points_len: usize) -> u32;
        pub fn heddleplume_pentagon_sphere(frame: *const f64, frame_len: usize, face: u32, i: u32, j: u32, k: u32, level: u32, start: u32, length: u32, marks: *mut u32, marks_len: usize, points: *mut f64, points_len: usize) -> u32;
        pub fn heddleplume_region_write(level: u32, rows: *const i32, rows_len: usize, out: *mut u8, out_len: usize) -> u32;
        pub fn heddleplume_region_check(list: *const u8, list_len: usize, out: *mut u32, out_len: usize) -> u32;
        pub fn heddleplume_region_record(list: *const u8, list_len: usize, number: u32, out: *mut u32, out_len: usize) -> u32;
        pub fn heddleplume_region_has(list: *const u8, list_len: usize, face: u32, i: u32, j: u32, k: u32, out: *mut u32, out_len: usize) -> u32;
    }
}

/// A face and its coordinates, as the C functions take them.
pub type Four = [u32; 4];

pub fn frame(out: &mut [f64]) -> u32 {
    // SAFETY: a slice with its own length.
    unsafe { c::heddleplume_frame(out.as_mut_ptr(), out.len()) }
}

pub fn nearest(frame: &[f64], [x, y, z]: [f64; 3], face: &mut [u32], distance: &mut [f64]) -> u32 {
    let (faces, distances) = (face.len(), distance.len());
    // SAFETY: three slices, each with its own length.
    unsafe { c::heddleplume_nearest(frame.as_ptr(), frame.len(), x, y, z, face.as_mut_ptr(), faces, distance.as_mut_ptr(), distances) }
}

pub fn plane_point(frame: &[f64], face: u32, level: u32, [x, y, z]: [f64; 3], out: &mut [f64]) -> u32 {
    // SAFETY: two slices, each with its own length.
    unsafe { c::heddleplume_plane_point(frame.as_ptr(), frame.len(), face, level, x, y, z, out.as_mut_ptr(), out.len()) }
}

pub fn place(frame: &[f64], [x, y, z]: [f64; 3], level: u32, out: &mut [u32], left: &mut [f64]) -> u32 {
    let (frame, frames) = (frame.as_ptr(), frame.len());
    // SAFETY: three slices, each with its own length.
    unsafe { c::heddleplume_place(frame, frames, x, y, z, level, out.as_mut_ptr(), out.len(), left.as_mut_ptr(), left.len()) }
}

pub fn batch(frame: &[f64], level: u32, input: &[f64], out: &mut [i32], first: usize, refused: &mut [u64]) -> u32 {
    let (frame, frames) = (frame.as_ptr(), frame.len());
    let (out, outs) = (out.as_mut_ptr(), out.len());
    // SAFETY: four slices, each with its own length.
    unsafe {
        c::heddleplume_batch(frame, frames, level, input.as_ptr(), input.len(), out, outs, first, refused.as_mut_ptr(), refused.len())
    }
}

pub fn raise(level: u32, out: &mut [u32]) -> u32 {
    // SAFETY: a slice with its own length.
    unsafe { c::heddleplume_raise(level, out.as_mut_ptr(), out.len()) }
}

pub fn grid(level: u32, substrate: bool, out: &mut [u32]) -> u32 {
    // SAFETY: a slice with its own length.
    unsafe { c::heddleplume_grid(level, substrate, out.as_mut_ptr(), out.len()) }
}

pub fn reduce([i, j, k]: [u32; 3], out: &mut [u32]) -> u32 {
    // SAFETY: a slice with its own length.
    unsafe { c::heddleplume_reduce(i, j, k, out.as_mut_ptr(), out.len()) }
}

pub fn map(map: u32, [i, j, k]: [u32; 3], out: &mut [u32]) -> u32 {
    // SAFETY: a slice with its own length.
    unsafe { c::heddleplume_map(map, i, j, k, out.as_mut_ptr(), out.len()) }
}

pub fn round(x: f64, y: f64, out: &mut [u32], left: &mut [f64]) -> u32 {
    // SAFETY: two slices, each with its own length.
    unsafe { c::heddleplume_round(x, y, out.as_mut_ptr(), out.len(), left.as_mut_ptr(), left.len()) }
}

pub fn margin(r1: f64, r2: f64, out: &mut [f64]) -> u32 {
    // SAFETY: a slice with its own length.
    unsafe { c::heddleplume_margin(r1, r2, out.as_mut_ptr(), out.len()) }
}

pub fn centre([i, j, k]: [u32; 3], out: &mut [f64]) -> u32 {
    // SAFETY: a slice with its own length.
    unsafe { c::heddleplume_centre(i, j, k, out.as_mut_ptr(), out.len()) }
}

pub fn meet(lines: &[f64], out: &mut [f64]) -> u32 {
    // SAFETY: two slices, each with its own length.
    unsafe { c::heddleplume_meet(lines.as_ptr(), lines.len(), out.as_mut_ptr(), out.len()) }
}

pub fn alike([x, y]: [f64; 2], [x2, y2]: [f64; 2], out: &mut [u32]) -> u32 {
    // SAFETY: a slice with its own length.
    unsafe { c::heddleplume_alike(x, y, x2, y2, out.as_mut_ptr(), out.len()) }
}

pub fn direction(from: u32, to: u32, out: &mut [u32]) -> u32 {
    // SAFETY: a slice with its own length.
    unsafe { c::heddleplume_direction(from, to, out.as_mut_ptr(), out.len()) }
}

pub fn turn([face, i, j, k]: Four, clockwise: bool, out: &mut [u32]) -> u32 {
    // SAFETY: a slice with its own length.
    unsafe { c::heddleplume_turn(face, i, j, k, clockwise, out.as_mut_ptr(), out.len()) }
}

pub fn step([face, i, j, k]: Four, level: u32, substrate: bool, edge: u32, out: &mut [u32]) -> u32 {
    // SAFETY: a slice with its own length.
    unsafe { c::heddleplume_step(face, i, j, k, level, substrate, edge, out.as_mut_ptr(), out.len()) }
}

pub fn cross([face, i, j, k]: Four, level: u32, substrate: bool, turn: bool, out: &mut [u32]) -> u32 {
    // SAFETY: a slice with its own length.
    unsafe { c::heddleplume_cross(face, i, j, k, level, substrate, turn, out.as_mut_ptr(), out.len()) }
}

pub fn settle([face, i, j, k]: Four, level: u32, substrate: bool, out: &mut [u64]) -> u32 {
    // SAFETY: a slice with its own length.
    unsafe { c::heddleplume_settle(face, i, j, k, level, substrate, out.as_mut_ptr(), out.len()) }
}

pub fn same_corner([face, i, j, k]: Four, [face2, i2, j2, k2]: Four, level: u32, out: &mut [u32]) -> u32 {
    // SAFETY: a slice with its own length.
    unsafe { c::heddleplume_same_corner(face, i, j, k, face2, i2, j2, k2, level, out.as_mut_ptr(), out.len()) }
}

pub fn first_name([face, i, j, k]: Four, level: u32, out: &mut [u32]) -> u32 {
    // SAFETY: a slice with its own length.
    unsafe { c::heddleplume_first_name(face, i, j, k, level, out.as_mut_ptr(), out.len()) }
}

pub fn corners([face, i, j, k]: Four, level: u32, out: &mut [u32]) -> u32 {
    // SAFETY: a slice with its own length.
    unsafe { c::heddleplume_corners(face, i, j, k, level, out.as_mut_ptr(), out.len()) }
}

pub fn hexagon(centre: Four, level: u32, start: u32, length: u32, marks: &mut [u32], points: &mut [f64]) -> u32 {
    let [face, i, j, k] = centre;
    let (marks, marked) = (marks.as_mut_ptr(), marks.len());
    // SAFETY: two slices, each with its own length.
    unsafe { c::heddleplume_hexagon(face, i, j, k, level, start, length, marks, marked, points.as_mut_ptr(), points.len()) }
}

pub fn pentagon(centre: Four, level: u32, start: u32, length: u32, marks: &mut [u32], points: &mut [f64]) -> u32 {
    let [face, i, j, k] = centre;
    let (marks, marked) = (marks.as_mut_ptr(), marks.len());
    // SAFETY: two slices, each with its own length.
    unsafe { c::heddleplume_pentagon(face, i, j, k, level, start, length, marks, marked, points.as_mut_ptr(), points.len()) }
}

pub fn root(x: f64, out: &mut [f64]) -> u32 {
    // SAFETY: a slice with its own length.
    unsafe { c::heddleplume_root(x, out.as_mut_ptr(), out.len()) }
}

pub fn sphere(frame: &[f64], face: u32, level: u32, [x, y]: [f64; 2], out: &mut [f64]) -> u32 {
    // SAFETY: two slices, each with its own length.
    unsafe { c::heddleplume_sphere(frame.as_ptr(), frame.len(), face, level, x, y, out.as_mut_ptr(), out.len()) }
}

pub fn hexagon_sphere(frame: &[f64], centre: Four, level: u32, start: u32, length: u32, marks: &mut [u32], points: &mut [f64]) -> u32 {
    let [face, i, j, k] = centre;
    let (frame, frames) = (frame.as_ptr(), frame.len());
    let (marks, marked) = (marks.as_mut_ptr(), marks.len());
    let (points, pointed) = (points.as_mut_ptr(), points.len());
    // SAFETY: three slices, each with its own length.
    unsafe { c::heddleplume_hexagon_sphere(frame, frames, face, i, j, k, level, start, length, marks, marked, points, pointed) }
}

pub fn pentagon_sphere(frame: &[f64], centre: Four, level: u32, start: u32, length: u32, marks: &mut [u32], points: &mut [f64]) -> u32 {
    let [face, i, j, k] = centre;
    let (frame, frames) = (frame.as_ptr(), frame.len());
    let (marks, marked) = (marks.as_mut_ptr(), marks.len());
    let (points, pointed) = (points.as_mut_ptr(), points.len());
    // SAFETY: three slices, each with its own length.
    unsafe { c::heddleplume_pentagon_sphere(frame, frames, face, i, j, k, level, start, length, marks, marked, points, pointed) }
}

pub fn region_write(level: u32, rows: &[i32], out: &mut [u8]) -> u32 {
    // SAFETY: two slices, each with its own length.
    unsafe { c::heddleplume_region_write(level, rows.as_ptr(), rows.len(), out.as_mut_ptr(), out.len()) }
}

pub fn region_check(list: &[u8], out: &mut [u32]) -> u32 {
    // SAFETY: two slices, each with its own length.
    unsafe { c::heddleplume_region_check(list.as_ptr(), list.len(), out.as_mut_ptr(), out.len()) }
}

pub fn region_record(list: &[u8], number: u32, out: &mut [u32]) -> u32 {
    // SAFETY: two slices, each with its own length.
    unsafe { c::heddleplume_region_record(list.as_ptr(), list.len(), number, out.as_mut_ptr(), out.len()) }
}

pub fn region_has(list: &[u8], [face, i, j, k]: Four, out: &mut [u32]) -> u32 {
    // SAFETY: two slices, each with its own length.
    unsafe { c::heddleplume_region_has(list.as_ptr(), list.len(), face, i, j, k, out.as_mut_ptr(), out.len()) }
}

#[cfg(test)]
mod tests;
