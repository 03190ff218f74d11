//! What is wrong with a list that has not passed its check, in words for the desk.
use heddleplume::{CellLevel, FaceIJK, Refusal, region};

use crate::places::fault;

/// The first thing that is wrong.
pub fn of(list: &[u8]) -> String {
    // No list has a record of this number, so that the length alone is asked.
    if region::record(list, u32::MAX) == Err(Refusal::BadList) {
        return format!("its length, {} bytes, does not fit the count at its end", list.len());
    }
    in_records(list).unwrap_or_else(|| in_tail(list))
}

/// The first record that is wrong, or stands where it does not belong.
fn in_records(list: &[u8]) -> Option<String> {
    let mut last: Option<[u32; 4]> = None;
    for number in 0.. {
        let record: [u32; 4] = region::record(list, number).ok()?.into();
        let why = fault(FaceIJK::from(record)).or((last >= Some(record)).then_some("it does not come after the one before it"));
        if let Some(why) = why {
            let [face, i, j, k] = record;
            return Some(format!("record {number}, of which the first is 0, is {face} {i} {j} {k}: {why}"));
        }
        last = Some(record);
    }
    None
}

/// The tail of a list whose length and records are good.
fn in_tail(list: &[u8]) -> String {
    let at = list.len() - 8;
    let level = u32::from_le_bytes([list[at], list[at + 1], list[at + 2], list[at + 3]]);
    match CellLevel(level).raise() {
        Err(_) => format!("its level is {level}, not 0..15"),
        Ok(_) => "the starts of the faces at its end are not those of its records".into(),
    }
}
