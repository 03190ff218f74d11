//! Stands for `CoordIJK`, by document 01's rules: reducing and the table of maps.
use crate::Direction;

#[derive(Debug, Clone, Copy, Default, Eq, PartialEq)]
pub struct CoordIJK {
    i: i32,
    j: i32,
    k: i32,
}

impl CoordIJK {
    pub const fn new(i: i32, j: i32, k: i32) -> Self {
        Self { i, j, k }
    }
    pub const fn i(&self) -> i32 {
        self.i
    }
    pub const fn j(&self) -> i32 {
        self.j
    }
    pub const fn k(&self) -> i32 {
        self.k
    }

    pub fn normalize(self) -> Self {
        let least = self.i.min(self.j).min(self.k);
        Self::new(self.i - least, self.j - least, self.k - least)
    }

    fn sent(self, a: [i32; 3], b: [i32; 3], c: [i32; 3]) -> Self {
        let at = |n: usize| a[n] * self.i + b[n] * self.j + c[n] * self.k;
        Self::new(at(0), at(1), at(2)).normalize()
    }

    pub fn rotate60<const CCW: bool>(self) -> Self {
        if CCW {
            self.sent([1, 1, 0], [0, 1, 1], [1, 0, 1])
        } else {
            self.sent([1, 0, 1], [1, 1, 0], [0, 1, 1])
        }
    }
    pub fn down_aperture3<const CCW: bool>(self) -> Self {
        if CCW {
            self.sent([2, 0, 1], [1, 2, 0], [0, 1, 2])
        } else {
            self.sent([2, 1, 0], [0, 2, 1], [1, 0, 2])
        }
    }
    pub fn down_aperture7<const CCW: bool>(self) -> Self {
        if CCW {
            self.sent([3, 0, 1], [1, 3, 0], [0, 1, 3])
        } else {
            self.sent([3, 1, 0], [0, 3, 1], [1, 0, 3])
        }
    }
    pub fn up_aperture7<const CCW: bool>(self) -> Self {
        unreachable!("index work is outside the scope")
    }
    pub fn neighbor(self, _direction: Direction) -> Self {
        unreachable!("index work is outside the scope")
    }
}

impl std::ops::Add for CoordIJK {
    type Output = Self;
    fn add(self, o: Self) -> Self {
        Self::new(self.i + o.i, self.j + o.j, self.k + o.k)
    }
}

impl std::ops::Sub for CoordIJK {
    type Output = Self;
    fn sub(self, o: Self) -> Self {
        Self::new(self.i - o.i, self.j - o.j, self.k - o.k)
    }
}

impl std::ops::MulAssign<i32> for CoordIJK {
    fn mul_assign(&mut self, n: i32) {
        *self = Self::new(self.i * n, self.j * n, self.k * n);
    }
}
