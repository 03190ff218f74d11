//! Why a question was refused.
use std::error::Error;
use std::fmt;

/// Why a question was refused; its number is that of documents 01 and 02. Of several that apply the library gives the first in this order:
/// 14, 1, 2, 15, 3, 4, 5, 6, 7, 8, 9, 10, 11, 12, 13. (`<` between two refusals compares their numbers, which is another order.)
#[derive(Clone, Copy, Debug, PartialEq, Eq, PartialOrd, Ord, Hash)]
#[repr(u32)]
pub enum Refusal {
    /// The frame is not 180 finite doubles of twenty unit centres and their axes.
    BadFrame = 1,
    /// A slice has the wrong length, or the rows do not fit.
    BadRows = 2,
    /// A face above 19.
    BadFace = 3,
    /// A cell level above 15; a grid level that is odd or above 16.
    BadLevel = 4,
    /// An edge that is none of the three, a start or length of a border out of range, a record number that is not below the count, or a
    /// leftover that is not at least 0 and below 1.
    BadRange = 5,
    /// A NaN or an infinity; the root of a number below 0; a point on the sphere whose length is not finite.
    BadNumber = 6,
    /// The vector's length is not 1.
    OffSphere = 7,
    /// The vector lies behind the face's plane, or a point on its way to the sphere is nearer to the middle than a half.
    Behind = 8,
    /// A plane point with a part of 2^25 or more.
    TooFar = 9,
    /// No coordinate is 0, or one is above 2^26.
    NotReduced = 10,
    /// A border's centre, or a corner whose names are asked for, lies outside its face.
    OutOfFace = 11,
    /// A border runs over faces that are not neighbours.
    NotAdjacent = 12,
    /// Two lines do not meet.
    NoCrossing = 13,
    /// A line of text cannot be read. No function of this crate gives it, but its program does, of the lines of a batch or of a region.
    BadLine = 14,
    /// A region list of a wrong length, order, place or tail; or rows for one that are not in order, come twice or are no places.
    BadList = 15,
}

impl Refusal {
    /// All fifteen, in the order of their numbers.
    pub const ALL: [Refusal; 15] = [
        Refusal::BadFrame,
        Refusal::BadRows,
        Refusal::BadFace,
        Refusal::BadLevel,
        Refusal::BadRange,
        Refusal::BadNumber,
        Refusal::OffSphere,
        Refusal::Behind,
        Refusal::TooFar,
        Refusal::NotReduced,
        Refusal::OutOfFace,
        Refusal::NotAdjacent,
        Refusal::NoCrossing,
        Refusal::BadLine,
        Refusal::BadList,
    ];

    /// Its number, 1..15.
    pub const fn number(self) -> u32 {
        self as u32
    }

    /// The refusal of a number; none if it is not 1..15.
    pub fn from_number(number: u32) -> Option<Refusal> {
        Refusal::ALL.into_iter().find(|refusal| refusal.number() == number)
    }

    /// What to do about it.
    pub const fn advice(self) -> &'static str {
        match self {
            Refusal::BadFrame => "load the frame again",
            Refusal::BadRows => "lend slices of the lengths stated",
            Refusal::BadFace => "pass a face 0..19",
            Refusal::BadLevel => "pass a cell level 0..15 or an even grid level 0..16",
            Refusal::BadRange => {
                "pass an edge IJ, KI or JK, a start and length that the cell has, a record number below the count, leftovers as a \
                 rounding gave them"
            }
            Refusal::BadNumber => "the receiver has no fix, keep its feed",
            Refusal::OffSphere => "divide the vector by its length first",
            Refusal::Behind => "the frame is no icosahedron, load the frame again",
            Refusal::TooFar => "the point lies on no face, check where it comes from",
            Refusal::NotReduced => "subtract the least coordinate from all three first",
            Refusal::OutOfFace => "settle the place first; a cell of an odd level that lies outside has no border here",
            Refusal::NotAdjacent => "name the pentagon on a face where it lies on the i axis; the border of any other cell is a hexagon's",
            Refusal::NoCrossing => "check the ends of the lines, which are parallel or too large",
            Refusal::BadLine => "write the line as the help shows it",
            Refusal::BadList => "the list is damaged or not a region list: write it again",
        }
    }
}

impl fmt::Display for Refusal {
    fn fmt(&self, f: &mut fmt::Formatter<'_>) -> fmt::Result {
        write!(f, "refused {} {self:?}: {}", self.number(), self.advice())
    }
}

impl Error for Refusal {}
