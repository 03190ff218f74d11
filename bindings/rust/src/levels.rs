//! Levels and grids. The two kinds of level are kept apart; both hold any number, and what is out of range the library refuses.
use crate::answered::answered;
use crate::{Refusal, ffi};

/// A cell level, 0..15 (h3o's `Resolution`); an odd one is of Class III. Any other gets [`Refusal::BadLevel`](crate::Refusal::BadLevel).
#[derive(Clone, Copy, Debug, PartialEq, Eq, PartialOrd, Ord, Hash)]
pub struct CellLevel(pub u32);

impl CellLevel {
    /// Its grid level: an odd one is raised by one. Refusals: 4.
    pub fn raise(self) -> Result<GridLevel, Refusal> {
        let mut out = [0];
        answered(ffi::raise(self.0, &mut out))?;
        Ok(GridLevel(out[0]))
    }
}

/// A grid level, even, 0..16 (h3o's `ExtendedResolution`). Any other gets [`Refusal::BadLevel`](crate::Refusal::BadLevel).
#[derive(Clone, Copy, Debug, PartialEq, Eq, PartialOrd, Ord, Hash)]
pub struct GridLevel(pub u32);

impl GridLevel {
    /// The sizes of its grid on a face. Refusals: 4.
    pub fn sizes(self, grid: Grid) -> Result<Sizes, Refusal> {
        let mut out = [0; 3];
        answered(ffi::grid(self.0, grid.is_substrate(), &mut out))?;
        Ok(Sizes { unit: out[0], limit: out[1] })
    }
}

/// The sizes of a face's grid.
#[derive(Clone, Copy, Debug, PartialEq, Eq, Hash)]
pub struct Sizes {
    /// The unit scale.
    pub unit: u32,
    /// The limit of i + j + k on the face.
    pub limit: u32,
}

/// Which grid of a level a place lies on.
#[derive(Clone, Copy, Debug, PartialEq, Eq, Hash)]
pub enum Grid {
    /// The grid of the cells.
    Plain,
    /// The grid of their corners, three times as fine.
    Substrate,
}

impl Grid {
    pub(crate) fn is_substrate(self) -> bool {
        self == Grid::Substrate
    }
}
