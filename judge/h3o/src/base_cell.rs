//! Stands for `BaseCell`: index work is outside the scope and never called.

#[derive(Debug, Clone, Copy, Eq, PartialEq)]
pub struct BaseCell(u8);

impl BaseCell {
    pub const fn new_unchecked(value: u8) -> Self {
        Self(value)
    }
    pub fn is_pentagon(self) -> bool {
        unreachable!("index work is outside the scope")
    }
    pub fn is_cw_offset(self, _face: crate::Face) -> bool {
        unreachable!("index work is outside the scope")
    }
}

impl From<BaseCell> for u8 {
    fn from(value: BaseCell) -> Self {
        value.0
    }
}
