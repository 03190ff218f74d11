//! What the rounding to a hexagon leaves over, and how near the border it says that a point was.
use crate::answered::answered;
use crate::{Refusal, ffi};

/// What is left over when a plane point becomes a hexagon: the two doubles by which the hexagon was chosen, each at least 0 and below 1,
/// never minus zero. With x2 = |y|·1.1547005383792515 and x1 = |x| + x2/2, each operation rounded, they are x1 and x2 without their whole
/// parts.
///
/// They say how near the line the point was, but not which neighbour is near: (x, y), (-x, y), (x, -y) and (-x, -y) have the same.
#[derive(Clone, Copy, Debug, Default, PartialEq)]
pub struct Leftovers {
    /// What is left of x1.
    pub r1: f64,
    /// What is left of x2.
    pub r2: f64,
}

impl From<[f64; 2]> for Leftovers {
    fn from([r1, r2]: [f64; 2]) -> Leftovers {
        Leftovers { r1, r2 }
    }
}

impl Leftovers {
    /// How far the point was from the nearest border of its hexagon, in hexagons: the distance between the centres of neighbours is 1, so 0
    /// is on the border and 0.5, the most, at the centre. Refusals: 5, for a leftover that is not at least 0 and below 1.
    ///
    /// Switch a feed only where the new place has some margin, say 0.05: it then does not flicker along a border, as long as positions
    /// jitter by less.
    ///
    /// ```
    /// use heddleplume::{Leftovers, Refusal, Vec2d};
    ///
    /// // Halfway between two centres lies the border.
    /// let (on_it, near_it) = (Vec2d::new(0.5, 0.0).to_ijk()?, Vec2d::new(0.53125, 0.0).to_ijk()?);
    /// assert_eq!((on_it.left.margin(), near_it.left.margin()), (Ok(0.0), Ok(0.03125)));
    /// assert_eq!(Leftovers::default().margin(), Ok(0.5));
    /// assert_eq!(Leftovers { r1: 1.0, r2: 0.0 }.margin(), Err(Refusal::BadRange));
    /// # Ok::<(), Refusal>(())
    /// ```
    ///
    /// It differs by less than 2^-51 from the same number worked out exactly of the leftovers. On the border itself it may lie below 0,
    /// since the tests of the rounding are rounded and leftovers are cut here; it is never below -2^-40.
    ///
    /// It is no distance on Earth: it is measured on the plane of the face, and hexagons differ in size. One of level 9 is about 350 m from
    /// centre to centre. And it sees the borders of hexagons, not the edges of faces: over an edge the same hexagon is named from another
    /// face, whatever the margin.
    pub fn margin(self) -> Result<f64, Refusal> {
        let mut out = [0.0];
        answered(ffi::margin(self.r1, self.r2, &mut out))?;
        Ok(out[0])
    }
}
