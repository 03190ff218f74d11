//! Places, and how they are named from one face and from another.
use crate::answered::{answered, unheard_of, yes_or_no};
use crate::{CoordIJK, Grid, GridLevel, Refusal, ffi};

/// A place: a face 0..19 and coordinates on it.
#[derive(Clone, Copy, Debug, Default, PartialEq, Eq, Hash)]
pub struct FaceIJK {
    /// The face.
    pub face: u32,
    /// Along its i-axis.
    pub i: u32,
    /// Along its j-axis.
    pub j: u32,
    /// Along its k-axis.
    pub k: u32,
}

impl From<[u32; 4]> for FaceIJK {
    fn from([face, i, j, k]: [u32; 4]) -> FaceIJK {
        FaceIJK { face, i, j, k }
    }
}

impl From<FaceIJK> for [u32; 4] {
    fn from(place: FaceIJK) -> [u32; 4] {
        [place.face, place.i, place.j, place.k]
    }
}

/// How a crossing ended.
#[derive(Clone, Copy, Debug, PartialEq, Eq, Hash)]
pub enum Overage {
    /// Still on the face, unchanged.
    None,
    /// On an edge; only on a substrate grid.
    FaceEdge,
    /// On a neighbour face.
    NewFace,
}

impl Overage {
    fn from_number(number: u32) -> Overage {
        match number {
            0 => Overage::None,
            1 => Overage::FaceEdge,
            2 => Overage::NewFace,
            _ => unheard_of("the end of a crossing", number),
        }
    }
}

/// Where another face lies.
#[derive(Clone, Copy, Debug, PartialEq, Eq, Hash)]
#[repr(u32)]
pub enum Direction {
    /// It is the face itself.
    Itself = 0,
    /// Over the edge IJ.
    OverIJ = 1,
    /// Over the edge KI.
    OverKI = 2,
    /// Over the edge JK.
    OverJK = 3,
    /// It is no neighbour.
    Elsewhere = 7,
}

impl Direction {
    /// Its number: 0, 1, 2, 3 or 7.
    pub const fn number(self) -> u32 {
        self as u32
    }

    fn from_number(number: u32) -> Direction {
        match number {
            0 => Direction::Itself,
            1 => Direction::OverIJ,
            2 => Direction::OverKI,
            3 => Direction::OverJK,
            7 => Direction::Elsewhere,
            _ => unheard_of("a direction", number),
        }
    }
}

/// Where the face `to` lies, seen from the face `from`. Refusals: 3.
pub fn face_direction(from: u32, to: u32) -> Result<Direction, Refusal> {
    let mut out = [0];
    answered(ffi::direction(from, to, &mut out))?;
    Ok(Direction::from_number(out[0]))
}

/// Where a crossing ended, and how.
#[derive(Clone, Copy, Debug, PartialEq, Eq, Hash)]
pub struct Landed {
    /// The place, named from the face it ended on.
    pub place: FaceIJK,
    /// How it ended.
    pub overage: Overage,
}

/// Where settling ended, and after how many steps over an edge.
#[derive(Clone, Copy, Debug, PartialEq, Eq, Hash)]
pub struct Rested {
    /// The place, named from the face it lies on.
    pub place: FaceIJK,
    /// The number of steps.
    pub steps: u64,
}

impl FaceIJK {
    /// The place i, j, k of a face.
    pub const fn new(face: u32, i: u32, j: u32, k: u32) -> FaceIJK {
        FaceIJK { face, i, j, k }
    }

    /// Its coordinates.
    pub const fn coord(self) -> CoordIJK {
        CoordIJK::new(self.i, self.j, self.k)
    }

    /// The place after a sixth of a turn about its face's centre. Refusals: 3, 10.
    pub fn turn(self, clockwise: bool) -> Result<FaceIJK, Refusal> {
        let mut out = [0; 4];
        answered(ffi::turn(self.into(), clockwise, &mut out))?;
        Ok(out.into())
    }

    /// The same place named from the neighbour face over an edge. Refusals: 3, 4, 5 for a direction that is no edge, 10.
    pub fn step(self, level: GridLevel, grid: Grid, edge: Direction) -> Result<FaceIJK, Refusal> {
        let mut out = [0; 4];
        answered(ffi::step(self.into(), level.0, grid.is_substrate(), edge.number(), &mut out))?;
        Ok(out.into())
    }

    /// One crossing (h3o's `adjust_overage_class2`): a place beyond its face is named from the neighbour that it lies towards.
    /// `pentagon_turn` asks for the turn before a step over KI. Refusals: 3, 4, 10.
    pub fn cross(self, level: GridLevel, grid: Grid, pentagon_turn: bool) -> Result<Landed, Refusal> {
        let mut out = [0; 5];
        answered(ffi::cross(self.into(), level.0, grid.is_substrate(), pentagon_turn, &mut out))?;
        let [face, i, j, k, overage] = out;
        Ok(Landed { place: FaceIJK { face, i, j, k }, overage: Overage::from_number(overage) })
    }

    /// Crossings, without the turn, until the place lies on its face (h3o's `adjust_pentagon_vertex_overage` on a substrate grid).
    /// From coordinates near 2^26 at level 0 this takes about half a second. Refusals: 3, 4, 10.
    pub fn settle(self, level: GridLevel, grid: Grid) -> Result<Rested, Refusal> {
        let mut out = [0; 5];
        answered(ffi::settle(self.into(), level.0, grid.is_substrate(), &mut out))?;
        let [face, i, j, k] = [out[0], out[1], out[2], out[3]].map(|number| u32::try_from(number).expect("a place is of 32-bit numbers"));
        Ok(Rested { place: FaceIJK { face, i, j, k }, steps: out[4] })
    }

    /// Whether two corners are one. Both are places of the substrate grid of `level`, as the corners of cells are.
    ///
    /// A corner within its face has one name. One on an edge, where i + j + k is the limit of the face, has a second name on the face
    /// beyond the edge, and the corner of a face has five, one on each face that meets there. The answer is yes exactly when both
    /// places are names of one corner, so that places that look unlike may be the same. To compare many, take the
    /// [`first_name`](FaceIJK::first_name) of each.
    ///
    /// Refusals: 3, 4, 10, and 11 where a corner lies outside its face: [`settle`](FaceIJK::settle) it first, on the same grid. 3, 10 and
    /// 11 are those of either corner.
    pub fn same_corner(self, other: FaceIJK, level: GridLevel) -> Result<bool, Refusal> {
        let mut out = [0];
        answered(ffi::same_corner(self.into(), other.into(), level.0, &mut out))?;
        Ok(yes_or_no(out[0]))
    }

    /// The first name of a corner: of all its names on the substrate grid of `level` the one with the lowest face. Two corners are the
    /// [same](FaceIJK::same_corner) exactly when their first names are equal, so that first names serve as keys of a map; the first name
    /// of a first name is itself. Refusals: 3, 4, 10, and 11 where the corner lies outside its face: [`settle`](FaceIJK::settle) it
    /// first, on the same grid.
    ///
    /// ```
    /// use heddleplume::{FaceIJK, GridLevel};
    ///
    /// // One corner on the edge between the faces 0 and 4, as a cell of either face names it.
    /// let (here, beyond) = (FaceIJK::new(0, 4, 2, 0), FaceIJK::new(4, 4, 0, 2));
    /// assert_eq!(beyond.first_name(GridLevel(0)), Ok(here));
    /// assert_eq!(here.first_name(GridLevel(0)), Ok(here));
    /// assert_eq!(here.same_corner(beyond, GridLevel(0)), Ok(true));
    /// ```
    pub fn first_name(self, level: GridLevel) -> Result<FaceIJK, Refusal> {
        let mut out = [0; 4];
        answered(ffi::first_name(self.into(), level.0, &mut out))?;
        Ok(out.into())
    }
}
