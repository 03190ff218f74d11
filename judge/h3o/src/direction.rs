//! Stands for `Direction`: index work is outside the scope and never called.

#[derive(Debug, Clone, Copy, Eq, PartialEq)]
pub struct Direction(u8);

impl Direction {
    pub const K: Self = Self(1);
    pub fn new_unchecked(value: u8) -> Self {
        Self(value)
    }
    pub fn axe(self) -> Option<u8> {
        unreachable!("index work is outside the scope")
    }
}

impl From<Direction> for u8 {
    fn from(value: Direction) -> Self {
        value.0
    }
}

impl TryFrom<crate::CoordIJK> for Direction {
    type Error = crate::CoordIJK;
    fn try_from(value: crate::CoordIJK) -> Result<Self, Self::Error> {
        Err(value)
    }
}
