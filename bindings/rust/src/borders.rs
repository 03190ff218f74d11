//! The corners of a cell, and its border on the plane and on the sphere.
use std::ops::Deref;

use crate::answered::{answered, unheard_of};
use crate::{CellLevel, CoordIJK, FaceIJK, Frame, GridLevel, Refusal, Vec3d, ffi};

/// The corners of a cell on the substrate grid of a level; a pentagon takes the first five.
#[derive(Clone, Copy, Debug, PartialEq, Eq, Hash)]
pub struct Corners {
    /// The grid level.
    pub level: GridLevel,
    /// The corners.
    pub corners: [CoordIJK; 6],
}

/// What a point of a border is.
#[derive(Clone, Copy, Debug, Default, PartialEq, Eq, Hash)]
pub enum Mark {
    /// No point.
    #[default]
    Unused,
    /// A corner of the cell.
    Corner,
    /// A point where the border crosses an edge of the icosahedron.
    Crossing,
}

impl Mark {
    fn from_number(number: u32) -> Mark {
        match number {
            0 => Mark::Unused,
            1 => Mark::Corner,
            2 => Mark::Crossing,
            _ => unheard_of("a mark", number),
        }
    }
}

/// A point of a border, on the plane of a face.
#[derive(Clone, Copy, Debug, Default, PartialEq)]
pub struct BoundaryPoint {
    /// The face.
    pub face: u32,
    /// Along the face's i-axis.
    pub x: f64,
    /// A quarter turn counterclockwise from it.
    pub y: f64,
    /// What it is.
    pub mark: Mark,
}

/// A point of a border, on the sphere.
#[derive(Clone, Copy, Debug, PartialEq)]
pub struct SpherePoint {
    /// The face whose plane point it is the image of.
    pub face: u32,
    /// The unit vector. It passes the test of [`Refusal::OffSphere`].
    pub vector: Vec3d,
    /// What it is.
    pub mark: Mark,
}

/// How many points there is room for, and so the numbers that the library writes: the count, then face and mark of each.
const ROOM: usize = 12;
const MARKS: usize = 1 + 2 * ROOM;

/// The border of a cell. It can be read as the slice of its points.
#[derive(Clone, Copy, Debug, PartialEq)]
pub struct Border<P> {
    /// How many points it has.
    count: usize,
    /// Its points; those from the count on are unused and zero.
    points: [P; ROOM],
}

/// A border on the planes of its faces.
pub type Boundary = Border<BoundaryPoint>;

/// A border on the sphere.
pub type SphereBoundary = Border<SpherePoint>;

impl<P> Border<P> {
    /// How many points there is room for.
    pub const ROOM: usize = ROOM;

    /// `point` makes point n of its face and mark.
    fn read(marks: &[u32; MARKS], point: impl Fn(usize, u32, Mark) -> P) -> Border<P> {
        let count = marks[0] as usize;
        if count > ROOM {
            unheard_of("the number of a border's points", marks[0]);
        }
        let read = |n: usize| point(n, marks[1 + 2 * n], Mark::from_number(marks[2 + 2 * n]));
        Border { count, points: std::array::from_fn(read) }
    }
}

impl<P> Deref for Border<P> {
    type Target = [P];

    fn deref(&self) -> &[P] {
        &self.points[..self.count]
    }
}

/// Lends what a border on the plane needs.
fn on_plane(ask: impl FnOnce(&mut [u32], &mut [f64]) -> u32) -> Result<Boundary, Refusal> {
    let (mut marks, mut points) = ([0; MARKS], [0.0; 2 * ROOM]);
    answered(ask(&mut marks, &mut points))?;
    Ok(Border::read(&marks, |n, face, mark| BoundaryPoint { face, x: points[2 * n], y: points[2 * n + 1], mark }))
}

/// Lends what a border on the sphere needs.
fn on_sphere(ask: impl FnOnce(&mut [u32], &mut [f64]) -> u32) -> Result<SphereBoundary, Refusal> {
    let (mut marks, mut points) = ([0; MARKS], [0.0; 3 * ROOM]);
    answered(ask(&mut marks, &mut points))?;
    let vector = |n: usize| Vec3d::new(points[3 * n], points[3 * n + 1], points[3 * n + 2]);
    Ok(Border::read(&marks, |n, face, mark| SpherePoint { face, vector: vector(n), mark }))
}

impl FaceIJK {
    /// The corners of the cell, all named from its own face, also those that lie outside of it. To compare them with another cell's,
    /// [`settle`](FaceIJK::settle) each on the substrate grid and take its [`first_name`](FaceIJK::first_name). Refusals: 3, 4, 10.
    pub fn corners(self, level: CellLevel) -> Result<Corners, Refusal> {
        let mut out = [0; 19];
        answered(ffi::corners(self.into(), level.0, &mut out))?;
        let corner = |n: usize| CoordIJK::new(out[1 + 3 * n], out[2 + 3 * n], out[3 + 3 * n]);
        Ok(Corners { level: GridLevel(out[0]), corners: std::array::from_fn(corner) })
    }

    /// The border of a hexagon: `length` corners (0..6) from corner `start` (0..5) on, and the crossing points between them.
    /// Refusals: 3, 4, 5, 10, 11, 13.
    pub fn hexagon_boundary(self, level: CellLevel, start: u32, length: u32) -> Result<Boundary, Refusal> {
        on_plane(|marks, points| ffi::hexagon(self.into(), level.0, start, length, marks, points))
    }

    /// The border of a pentagon: `length` corners (0..5) from corner `start` (0..4) on, and the crossing points between them.
    /// Refusals: 3, 4, 5, 10, 11, then 12 or 13, that of the first crossing point needed.
    pub fn pentagon_boundary(self, level: CellLevel, start: u32, length: u32) -> Result<Boundary, Refusal> {
        on_plane(|marks, points| ffi::pentagon(self.into(), level.0, start, length, marks, points))
    }

    /// The border of a hexagon on the sphere: each point of [`FaceIJK::hexagon_boundary`] as [`crate::sphere_point`] gives it.
    /// Refusals: 3, 4, 5, 10, 11, then 6, 8 or 13, that of the first point that is refused.
    pub fn hexagon_on_sphere(self, frame: &Frame, level: CellLevel, start: u32, length: u32) -> Result<SphereBoundary, Refusal> {
        on_sphere(|marks, points| ffi::hexagon_sphere(frame.as_array(), self.into(), level.0, start, length, marks, points))
    }

    /// The border of a pentagon on the sphere. Refusals: 3, 4, 5, 10, 11, then 6, 8, 12 or 13, that of the first point that is refused.
    pub fn pentagon_on_sphere(self, frame: &Frame, level: CellLevel, start: u32, length: u32) -> Result<SphereBoundary, Refusal> {
        on_sphere(|marks, points| ffi::pentagon_sphere(frame.as_array(), self.into(), level.0, start, length, marks, points))
    }
}
