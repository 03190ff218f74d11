//! Points and hexagons on the plane of a face.
use crate::answered::{answered, yes_or_no};
use crate::{Leftovers, Refusal, ffi};

/// Coordinates of a hexagon on its face. Reduced means that the least is 0.
#[derive(Clone, Copy, Debug, Default, PartialEq, Eq, Hash)]
pub struct CoordIJK {
    /// Along the i-axis.
    pub i: u32,
    /// Along the j-axis.
    pub j: u32,
    /// Along the k-axis.
    pub k: u32,
}

impl CoordIJK {
    /// The coordinates i, j, k.
    pub const fn new(i: u32, j: u32, k: u32) -> CoordIJK {
        CoordIJK { i, j, k }
    }

    /// The least of the three taken from all three; any three are taken.
    pub fn reduce(self) -> CoordIJK {
        let mut out = [0; 3];
        answered(ffi::reduce([self.i, self.j, self.k], &mut out)).expect("any three are taken");
        CoordIJK::new(out[0], out[1], out[2])
    }

    /// The coordinates under a map of the grid. Refusals: 10.
    pub fn map(self, map: GridMap) -> Result<CoordIJK, Refusal> {
        let mut out = [0; 3];
        answered(ffi::map(map.number(), [self.i, self.j, self.k], &mut out))?;
        Ok(CoordIJK::new(out[0], out[1], out[2]))
    }

    /// The centre of the hexagon. Refusals: 10.
    pub fn centre(self) -> Result<Vec2d, Refusal> {
        let mut out = [0.0; 2];
        answered(ffi::centre([self.i, self.j, self.k], &mut out))?;
        Ok(Vec2d::new(out[0], out[1]))
    }
}

/// The five maps of the grid: turns, and steps to a finer grid.
#[derive(Clone, Copy, Debug, PartialEq, Eq, Hash)]
#[repr(u32)]
pub enum GridMap {
    /// A sixth of a turn, counterclockwise.
    SixthTurnCcw = 1,
    /// A sixth of a turn, clockwise.
    SixthTurnCw = 2,
    /// To the grid of a third of the area, counterclockwise.
    Aperture3Ccw = 3,
    /// The same, clockwise.
    Aperture3Cw = 4,
    /// To the grid of a seventh of the area, clockwise.
    Aperture7Cw = 5,
}

impl GridMap {
    /// Its number, 1..5.
    pub const fn number(self) -> u32 {
        self as u32
    }
}

/// The hexagon of a plane point, without its leftovers. Refusals: 6, 9.
impl TryFrom<Vec2d> for CoordIJK {
    type Error = Refusal;

    fn try_from(point: Vec2d) -> Result<CoordIJK, Refusal> {
        Ok(point.to_ijk()?.hexagon)
    }
}

/// The hexagon of a plane point, and what was left over.
#[derive(Clone, Copy, Debug, PartialEq)]
pub struct Rounded {
    /// The hexagon.
    pub hexagon: CoordIJK,
    /// The leftovers by which it was chosen.
    pub left: Leftovers,
}

/// A point on the plane of a face.
#[derive(Clone, Copy, Debug, Default, PartialEq)]
pub struct Vec2d {
    /// Along the i-axis.
    pub x: f64,
    /// A quarter turn counterclockwise from it.
    pub y: f64,
}

impl Vec2d {
    /// The point x, y.
    pub const fn new(x: f64, y: f64) -> Vec2d {
        Vec2d { x, y }
    }

    /// The hexagon of the point, and the leftovers by which it was chosen. For the hexagon alone there is [`CoordIJK::try_from`].
    /// Refusals: 6, 9.
    ///
    /// It is proved that this hexagon's centre is the nearest to the point whose coordinates are x1 and x2 of [`Leftovers`]: the square of
    /// the distance, in hexagons, is at most 1/3 + 2^-40, and no other centre's is smaller by more than 2^-40. x1 and x2 are themselves
    /// rounded: each is off the exact |x| + |y|/√3 or 2·|y|/√3 by at most one part in 2^51 of itself and two units of 2^-1074.
    ///
    /// ```
    /// use heddleplume::{CoordIJK, Leftovers, Refusal, Vec2d};
    ///
    /// // A quarter of the way from one centre to the next, and so a quarter from the border between them.
    /// let rounded = Vec2d::new(0.25, 0.0).to_ijk()?;
    /// assert_eq!(rounded.hexagon, CoordIJK::new(0, 0, 0));
    /// assert_eq!(rounded.left, Leftovers { r1: 0.25, r2: 0.0 });
    /// assert_eq!(rounded.left.margin(), Ok(0.25));
    /// # Ok::<(), Refusal>(())
    /// ```
    pub fn to_ijk(self) -> Result<Rounded, Refusal> {
        let (mut out, mut left) = ([0; 3], [0.0; 2]);
        answered(ffi::round(self.x, self.y, &mut out, &mut left))?;
        Ok(Rounded { hexagon: CoordIJK::new(out[0], out[1], out[2]), left: left.into() })
    }

    /// Whether both parts of the two points differ by at most 2^-23, the tolerance of borders. Refusals: 6.
    pub fn alike(self, other: Vec2d) -> Result<bool, Refusal> {
        let mut out = [0];
        answered(ffi::alike([self.x, self.y], [other.x, other.y], &mut out))?;
        Ok(yes_or_no(out[0]))
    }

    /// Where two lines meet, which may lie beyond their ends. Refusals: 6, 13.
    pub fn intersection(line1: (Vec2d, Vec2d), line2: (Vec2d, Vec2d)) -> Result<Vec2d, Refusal> {
        let (a, b) = line1;
        let (c, d) = line2;
        let mut out = [0.0; 2];
        answered(ffi::meet(&[a.x, a.y, b.x, b.y, c.x, c.y, d.x, d.y], &mut out))?;
        Ok(Vec2d::new(out[0], out[1]))
    }
}
