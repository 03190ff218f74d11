//! Which hexagon of which face of the icosahedron a place on Earth lies in, and the border of that hexagon: the grid of the public H3
//! library, over a library that is proved to meet its contract on every input.
//!
//! What cannot be answered is refused, with a [`Refusal`] that has a number and says what to do; never by an old answer. A receiver with
//! no fix, between two good ones:
//!
//! ```
//! use heddleplume::{CellLevel, FaceIJK, Frame, Refusal, locate_all};
//!
//! let frame = Frame::default();
//! let nan = 0.0 / 0.0;
//! let vectors = [[1.0, 0.0, 0.0], [nan, nan, nan], [0.0, 0.0, 1.0]];
//! let mut rows = [[7, 0, 1, 1]; 3];
//!
//! assert_eq!(locate_all(&frame, CellLevel(5), &vectors, &mut rows, 0), Ok(1));
//! assert_eq!(rows[1], [-6, 0, 0, 0]);
//! assert_eq!(heddleplume::read_row(rows[1]), Some(Err(Refusal::BadNumber)));
//! assert_eq!(Refusal::BadNumber.to_string(), "refused 6 BadNumber: the receiver has no fix, keep its feed");
//! ```
//!
//! One vector alone is asked with [`locate`], which also gives its [`Leftovers`]: how near the border of its hexagon it lies.
//! [`locate_each`] gives a batch as results of its own. Places move from face to face by the methods of [`FaceIJK`], which also has the
//! corners and borders of cells, on the plane of a face and on the sphere. Whether a place is in a region, a [`Region`] says, which is read
//! from a file and checked.
#![deny(unsafe_code, missing_docs)]
#![warn(clippy::undocumented_unsafe_blocks)]

mod answered;
mod borders;
#[allow(unsafe_code)]
mod ffi;
mod left;
mod levels;
mod places;
mod plane;
mod refusal;
pub mod region;
mod sphere;

pub use borders::{Border, Boundary, BoundaryPoint, Corners, Mark, SphereBoundary, SpherePoint};
pub use left::Leftovers;
pub use levels::{CellLevel, Grid, GridLevel, Sizes};
pub use places::{Direction, FaceIJK, Landed, Overage, Rested, face_direction};
pub use plane::{CoordIJK, GridMap, Rounded, Vec2d};
pub use refusal::Refusal;
pub use region::Region;
pub use sphere::{Frame, Located, Vec3d, locate, locate_all, locate_each, plane_point, read_row, sphere_point, square_root};
