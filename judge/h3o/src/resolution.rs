//! Stands for `Resolution` and `ExtendedResolution`, by document 01's rule for levels.

/// A cell level 0..15.
#[derive(Debug, Clone, Copy, Eq, PartialEq)]
pub struct Resolution(pub u8);

#[allow(non_upper_case_globals)]
impl Resolution {
    pub const Zero: Self = Self(0);
    pub const One: Self = Self(1);

    pub fn is_class3(self) -> bool {
        self.0 % 2 == 1
    }
    pub fn range(from: Self, to: Self) -> impl DoubleEndedIterator<Item = Self> {
        (from.0..=to.0).map(Self)
    }
}

impl From<Resolution> for usize {
    fn from(value: Resolution) -> Self {
        value.0.into()
    }
}

/// A grid level: even, 0..16, where the source's tables are asked.
#[derive(Debug, Clone, Copy, Eq, PartialEq)]
pub struct ExtendedResolution(pub u8);

impl ExtendedResolution {
    pub fn down(resolution: Resolution) -> Self {
        Self(resolution.0 + 1)
    }
    pub fn is_class3(self) -> bool {
        self.0 % 2 == 1
    }
}

impl From<Resolution> for ExtendedResolution {
    fn from(value: Resolution) -> Self {
        Self(value.0)
    }
}

impl From<ExtendedResolution> for usize {
    fn from(value: ExtendedResolution) -> Self {
        value.0.into()
    }
}
