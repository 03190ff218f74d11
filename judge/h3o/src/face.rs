//! Stands for the face module: neighbours by document 01's step table, centres and i-axes from the default frame.
use crate::coord::{CoordIJK, Vec3d};
use std::sync::LazyLock;

#[derive(Debug, Clone, Copy, Default, Eq, PartialEq)]
pub struct Face(u8);

impl Face {
    pub fn new_unchecked(value: impl TryInto<u8>) -> Self {
        Self(value.try_into().ok().expect("a face"))
    }
}

impl From<Face> for usize {
    fn from(value: Face) -> Self {
        value.0.into()
    }
}

pub const IJ: usize = 1;
pub const KI: usize = 2;
pub const JK: usize = 3;

/// How a step goes: the face over the edge, the translation in unit scales, the number of CCW turns.
#[derive(Debug, Clone, Copy)]
pub struct FaceOrientIJK {
    pub face: Face,
    pub translate: CoordIJK,
    pub ccw_rot60: u8,
}

const fn over(face: u8, t: (i32, i32, i32), turns: u8) -> FaceOrientIJK {
    FaceOrientIJK {
        face: Face(face),
        translate: CoordIJK::new(t.0, t.1, t.2),
        ccw_rot60: turns,
    }
}

/// Document 01's list of neighbours over IJ, KI, JK.
const OVER: [(u8, u8, u8); 20] = [
    (4, 1, 5), (0, 2, 6), (1, 3, 7), (2, 4, 8), (3, 0, 9), (10, 14, 0), (11, 10, 1), (12, 11, 2), (13, 12, 3), (14, 13, 4),
    (5, 6, 15), (6, 7, 16), (7, 8, 17), (8, 9, 18), (9, 5, 19), (16, 19, 10), (17, 15, 11), (18, 16, 12), (19, 17, 13), (15, 18, 14),
];

const fn neighbours() -> [[FaceOrientIJK; 4]; 20] {
    let mut all = [[over(0, (0, 0, 0), 0); 4]; 20];
    let mut f = 0;
    while f < 20 {
        let (ij, ki, jk) = OVER[f];
        all[f] = if f < 5 || f >= 15 {
            [over(f as u8, (0, 0, 0), 0), over(ij, (2, 0, 2), 1), over(ki, (2, 2, 0), 5), over(jk, (0, 2, 2), 3)]
        } else {
            [over(f as u8, (0, 0, 0), 0), over(ij, (2, 2, 0), 3), over(ki, (2, 0, 2), 3), over(jk, (0, 2, 2), 3)]
        };
        f += 1;
    }
    all
}

pub static NEIGHBORS: [[FaceOrientIJK; 4]; 20] = neighbours();

/// The default frame: nine doubles a face, centre, u, v, by their bits.
pub static FRAME: LazyLock<Vec<f64>> = LazyLock::new(|| {
    include_str!("../../frame.txt")
        .lines()
        .map(|l| f64::from_bits(u64::from_str_radix(l.split(' ').next().unwrap(), 16).unwrap()))
        .collect()
});

fn part(face: usize, at: usize) -> Vec3d {
    let f = &FRAME[9 * face + at..];
    Vec3d::new(f[0], f[1], f[2])
}

pub static CENTER_POINT: LazyLock<[Vec3d; 20]> = LazyLock::new(|| std::array::from_fn(|f| part(f, 0)));

/// The azimuth of each face's Class II i-axis, from the frame's u.
pub static AXES_AZ_RADS_CII: LazyLock<[f64; 20]> = LazyLock::new(|| {
    std::array::from_fn(|f| {
        let (c, u) = (part(f, 0), part(f, 3));
        let towards = Vec3d::new(c.x + u.x, c.y + u.y, c.z + u.z);
        let a = c.azimuth(&towards);
        if a < 0. { a + 2. * std::f64::consts::PI } else { a }
    })
});
