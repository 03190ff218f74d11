//! Region lists: the places of a region at one cell level, as the bytes of a file, and whether a place is among them.
//!
//! The server opens a list once, and asks it as often as it likes:
//!
//! ```
//! use heddleplume::{CellLevel, FaceIJK, Refusal, Region, region};
//!
//! let rows = [[3, 9433, 0, 4829], [9, 0, 3944, 11640]];
//! let file = region::list_of(CellLevel(9), &rows)?;
//!
//! let north = Region::open(file)?;
//! assert_eq!((north.level(), north.count()), (CellLevel(9), 2));
//! assert_eq!(north.has(FaceIJK::new(9, 0, 3944, 11640)), Ok(true));
//! assert_eq!(north.has(FaceIJK::new(9, 0, 3944, 11641)), Ok(false));
//! # Ok::<(), Refusal>(())
//! ```
//!
//! First come the records of sixteen bytes, face i j k, sorted and without repeats. The last 88 bytes point back: at which record each of
//! the twenty faces begins, then the level and the number of records. All numbers have 32 bits, the lowest byte first.
use std::borrow::Cow;

use crate::answered::{answered, yes_or_no};
use crate::{CellLevel, FaceIJK, Refusal, ffi};

/// The bytes of a record.
pub const RECORD: usize = 16;

/// The bytes after the records.
pub const TAIL: usize = 88;

/// What the tail of a list says of it.
#[derive(Clone, Copy, Debug, PartialEq, Eq, Hash)]
pub struct Facts {
    /// The cell level of all its places.
    pub level: CellLevel,
    /// How many they are.
    pub count: u32,
}

/// Writes the list of these rows, face i j k, into `out`, which has [`TAIL`] bytes and [`RECORD`] for each row, no more and no less. The
/// rows of a batch will do, once they are sorted and repeats are dropped; one that the batch refused is no place.
///
/// Refusals, which write nothing: 2 for another length of `out`; 15 for rows that are not in order, come twice or are no places, and for
/// more than 2^31 - 1 of them; 4.
pub fn write(level: CellLevel, rows: &[[i32; 4]], out: &mut [u8]) -> Result<(), Refusal> {
    answered(ffi::region_write(level.0, rows.as_flattened(), out))
}

/// The same into bytes of its own. Refusals: 15, 4.
///
/// ```
/// use heddleplume::{CellLevel, Refusal, region::list_of};
///
/// let mut rows = vec![[9, 0, 1, 2], [3, 5, 0, 0], [9, 0, 1, 2]];
/// assert_eq!(list_of(CellLevel(9), &rows), Err(Refusal::BadList));
/// // Rows compare as the list wants them.
/// rows.sort_unstable();
/// rows.dedup();
/// assert_eq!(list_of(CellLevel(9), &rows).map(|list| list.len()), Ok(2 * 16 + 88));
/// ```
pub fn list_of(level: CellLevel, rows: &[[i32; 4]]) -> Result<Vec<u8>, Refusal> {
    let mut list = vec![0; RECORD * rows.len() + TAIL];
    write(level, rows, &mut list)?;
    Ok(list)
}

/// The full check: length, every record and the tail. Refusals: 15.
pub fn check(list: &[u8]) -> Result<Facts, Refusal> {
    let mut out = [0; 2];
    answered(ffi::region_check(list, &mut out))?;
    Ok(Facts { level: CellLevel(out[0]), count: out[1] })
}

/// A record, by its number from 0 on, as it stands in the list: a place, if the list has passed its [`check`]. Refusals: 15 if the length
/// is wrong, which is all that is tested of the list; 5.
pub fn record(list: &[u8], number: u32) -> Result<FaceIJK, Refusal> {
    let mut out = [0; 4];
    answered(ffi::region_record(list, number, &mut out))?;
    Ok(out.into())
}

/// Whether a place is in a list: the quick question, which looks only between the start of its face and that of the next. On a list that
/// has passed its [`check`] the answer is that of reading every record. Of any other list nothing is claimed of its answers but 15: so ask
/// a [`Region`], which is always a checked one.
///
/// Refusals: 15 if the length is wrong, or the two starts are out of order or past the count (which is not asked if the face is above 19);
/// 3; 10.
pub fn has(list: &[u8], place: FaceIJK) -> Result<bool, Refusal> {
    let mut out = [0];
    answered(ffi::region_has(list, place.into(), &mut out))?;
    Ok(yes_or_no(out[0]))
}

/// A list that has passed its [`check`]. It owns its bytes or borrows them, so that nobody changes them after the check.
#[derive(Clone, Debug, PartialEq, Eq)]
pub struct Region<'a> {
    list: Cow<'a, [u8]>,
    facts: Facts,
}

impl<'a> Region<'a> {
    /// The region of these bytes, as they come from a file: owned as a `Vec<u8>`, or lent as a `&[u8]`. Refusals: 15.
    pub fn open(list: impl Into<Cow<'a, [u8]>>) -> Result<Region<'a>, Refusal> {
        let list = list.into();
        let facts = check(&list)?;
        Ok(Region { list, facts })
    }

    /// The cell level of its places. A place does not tell its own, so ask [`has`](Region::has) only of places at this level.
    pub fn level(&self) -> CellLevel {
        self.facts.level
    }

    /// How many places it has.
    pub fn count(&self) -> u32 {
        self.facts.count
    }

    /// A place of it, by its number from 0 on. Refusals: 5.
    pub fn record(&self, number: u32) -> Result<FaceIJK, Refusal> {
        record(&self.list, number)
    }

    /// Whether a place at its level is in it. Places are compared number by number, so it must be named from the same face, as
    /// [`locate`](crate::locate) and a batch name it. Refusals: 3, 10.
    pub fn has(&self, place: FaceIJK) -> Result<bool, Refusal> {
        has(&self.list, place)
    }

    /// Its places, in their order: by face, then by i, by j and by k.
    pub fn records(&self) -> impl ExactSizeIterator<Item = FaceIJK> {
        (0..self.facts.count).map(|number| self.record(number).expect("it is below the count"))
    }

    /// Its bytes.
    pub fn as_bytes(&self) -> &[u8] {
        &self.list
    }
}
