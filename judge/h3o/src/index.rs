//! Stands for the index module: index work is outside the scope and never called.

#[derive(Debug, Clone, Copy, Eq, PartialEq)]
pub struct CellIndex(u64);

impl CellIndex {
    pub fn new_unchecked(value: u64) -> Self {
        Self(value)
    }
    pub fn resolution(self) -> crate::Resolution {
        unreachable!("index work is outside the scope")
    }
}

/// A corner's number.
#[derive(Debug, Clone, Copy, Eq, PartialEq)]
pub struct Vertex(pub u8);

impl From<Vertex> for u8 {
    fn from(value: Vertex) -> Self {
        value.0
    }
}

pub mod bits {
    use crate::{Direction, Resolution};

    pub fn set_resolution(_bits: u64, _resolution: Resolution) -> u64 {
        unreachable!("index work is outside the scope")
    }
    pub fn first_axe(_bits: u64) -> Option<u8> {
        unreachable!("index work is outside the scope")
    }
    pub fn rotate60<const CCW: bool>(_bits: u64, _count: usize) -> u64 {
        unreachable!("index work is outside the scope")
    }
    pub fn pentagon_rotate60<const CCW: bool>(_bits: u64) -> u64 {
        unreachable!("index work is outside the scope")
    }
    pub fn get_direction(_bits: u64, _resolution: Resolution) -> u8 {
        unreachable!("index work is outside the scope")
    }
    pub fn set_direction(_bits: u64, _direction: u8, _resolution: Resolution) -> u64 {
        let _ = Direction::K;
        unreachable!("index work is outside the scope")
    }
}
