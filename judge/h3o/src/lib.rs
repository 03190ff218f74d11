//! The four files of h3o 0.11.1 that were ported, compiled unchanged from docs/src over shims for what is not in the text given.
//!
//! `coord` has them as they are, and its boundaries lie on the sphere; `plane` has `faceijk.rs` once more, with a `Vec3d` that
//! notes each plane point just before its projection, which is what a boundary of the port holds on the plane; `leftovers` has the
//! rounding once more, from a copy of `vec2d.rs` with one line more, which notes what its branches see.
#![allow(dead_code, unexpected_cfgs, unfulfilled_lint_expectations, clippy::all)]

mod base_cell;
pub mod coord;
mod direction;
pub mod face;
mod index;
pub mod leftovers;
mod math;
pub mod plane;
pub mod resolution;

pub use base_cell::BaseCell;
pub use coord::{CoordIJK, LatLng};
pub use direction::Direction;
pub use face::Face;
pub use index::{CellIndex, Vertex};
pub use plane::Boundary;
pub use resolution::{ExtendedResolution, Resolution};

const NUM_ICOSA_FACES: usize = 20;
const NUM_HEX_VERTS: u8 = 6;
const NUM_PENT_VERTS: u8 = 5;
const CCW: bool = true;
const CW: bool = false;
const DEFAULT_CELL_INDEX: u64 = 0x0800_1fff_ffff_ffff;
