//! A region's check and its writing as one writes them in Rust with speed in mind, for the benchmark.
use crate::{places::LARGEST, regions::{RECORD, TRAILER}};

/// Face, i, j, k.
pub type Place = [u32; 4];

fn number(bytes: &[u8]) -> u32 {
    u32::from_le_bytes(bytes.try_into().expect("four bytes"))
}

fn is_place([face, i, j, k]: Place) -> bool {
    face < 20 && (i == 0 || j == 0 || k == 0) && i <= LARGEST && j <= LARGEST && k <= LARGEST
}

/// How many records each face has, if all are places and each lies after the one before.
fn counted(places: impl Iterator<Item = Place>) -> Option<[u32; 20]> {
    let (mut counts, mut before) = ([0; 20], None);
    for place in places {
        if !is_place(place) || before.is_some_and(|b| b >= place) {
            return None;
        }
        counts[place[0] as usize] += 1;
        before = Some(place);
    }
    Some(counts)
}

/// Where each face begins.
fn starts(counts: [u32; 20]) -> [u32; 20] {
    let mut start = 0;
    counts.map(|count| {
        start += count;
        start - count
    })
}

/// The level and the count of a list that passes.
pub fn check(list: &[u8]) -> Option<(u32, u32)> {
    let (records, trailer) = list.split_at(list.len().checked_sub(TRAILER)?);
    let (level, count) = (number(&trailer[80..84]), number(&trailer[84..]));
    if level > 15 || count > i32::MAX as u32 || records.len() != RECORD * count as usize {
        return None;
    }
    let place = |r: &[u8]| [number(&r[..4]), number(&r[4..8]), number(&r[8..12]), number(&r[12..])];
    let counts = counted(records.chunks_exact(RECORD).map(place))?;
    let right = trailer.chunks_exact(4).zip(starts(counts)).all(|(bytes, start)| number(bytes) == start);
    right.then_some((level, count))
}

/// Writes sorted rows as a list, or says why not.
pub fn write(level: u32, rows: &[i32], out: &mut [u8]) -> u32 {
    if !rows.len().is_multiple_of(4) || out.len() != TRAILER + 4 * rows.len() {
        return 2;
    }
    let places = rows.chunks_exact(4).map(|r| [r[0] as u32, r[1] as u32, r[2] as u32, r[3] as u32]);
    let Some(counts) = counted(places).filter(|_| rows.len() / 4 <= i32::MAX as usize) else { return 15 };
    if level > 15 {
        return 4;
    }
    let numbers = rows.iter().map(|&n| n as u32).chain(starts(counts)).chain([level, (rows.len() / 4) as u32]);
    out.chunks_exact_mut(4).zip(numbers).for_each(|(into, number)| into.copy_from_slice(&number.to_le_bytes()));
    0
}
