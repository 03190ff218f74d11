//! Region lists: the four functions of the C face beside document 02's rules, written apart here. A list passes if it is what its own
//! places are written as, byte for byte; a place stands in it if it is among them. Nothing here searches by halving.
use crate::{Tally, chance::Chance, lists, lists::LARGE, ours, ours::{At, Said, UNTOUCHED, bare}, places};
use std::collections::BTreeSet;

/// The bytes of a record: face, i, j, k.
pub const RECORD: usize = 16;
/// The bytes at the end: twenty starts, the level, the count.
pub const TRAILER: usize = 88;

/// The bytes of a list of these places as they stand. A face begins after all records of lower faces, so where the next one does if it
/// has none itself.
pub fn written(places: &[At], level: u32) -> Vec<u8> {
    let records = places.iter().flat_map(|&(f, i, j, k)| [f, i, j, k]);
    let starts = (0..20).map(|face| places.iter().filter(|at| at.0 < face).count() as u32);
    let mut list = Vec::with_capacity(RECORD * places.len() + TRAILER);
    records.chain(starts).chain([level, places.len() as u32]).for_each(|number| list.extend(number.to_le_bytes()));
    list
}

fn number(list: &[u8], at: usize) -> u32 {
    u32::from_le_bytes([list[at], list[at + 1], list[at + 2], list[at + 3]])
}

fn record(list: &[u8], n: usize) -> At {
    let at = RECORD * n;
    (number(list, at), number(list, at + 4), number(list, at + 8), number(list, at + 12))
}

/// The count of a list, if its length is right.
fn count(list: &[u8]) -> Option<usize> {
    let records = list.len().checked_sub(TRAILER)?;
    let count = number(list, list.len() - 4);
    (count < 1 << 31 && records as u64 == RECORD as u64 * u64::from(count)).then_some(count as usize)
}

/// The level and the places of a list that passes the full check.
fn passed(list: &[u8]) -> Option<(u32, BTreeSet<At>)> {
    let (count, level) = (count(list)?, number(list, list.len() - 8));
    let places: BTreeSet<At> = (0..count).map(|n| record(list, n)).collect();
    let sorted: Vec<At> = places.iter().copied().collect();
    let right = level < 16 && sorted.iter().all(|&at| at.0 < 20 && !places::not_reduced(at));
    (right && written(&sorted, level) == list).then_some((level, places))
}

/// The start of a face and that of the next one, or the count, as the trailer has them.
fn span(list: &[u8], face: u32) -> (usize, usize) {
    let at = list.len() - TRAILER + 4 * face as usize;
    let next = if face == 19 { list.len() - 4 } else { at + 4 };
    (number(list, at) as usize, number(list, next) as usize)
}

/// The refusal of the question whether a place stands in a list. A face that is none has no starts to be wrong.
fn refusal(list: &[u8], at: At) -> u32 {
    let Some(count) = count(list) else { return 15 };
    if at.0 > 19 {
        return 3;
    }
    let (start, next) = span(list, at.0);
    if start > next || next > count {
        return 15;
    }
    if places::not_reduced(at) { 10 } else { 0 }
}

/// What a list begins with and what it ends with, to report a wrong answer.
fn shown(list: &[u8]) -> String {
    let ends = (list.len() / 4).saturating_sub(22);
    let numbers = |from: usize, to: usize| (from..to).map(|n| number(list, 4 * n)).collect::<Vec<_>>();
    format!("{} bytes, {:?} .. {:?}", list.len(), numbers(0, ends.min(12)), numbers(ends, list.len() / 4))
}

/// The list that rows are written as, or the refusal: 2, then 15, then 4.
fn oracle_write(level: u32, rows: &[i32], out_len: usize) -> Result<Vec<u8>, u32> {
    if !rows.len().is_multiple_of(4) || out_len != TRAILER + RECORD * (rows.len() / 4) {
        return Err(2);
    }
    let places: Vec<At> = rows.chunks(4).map(|r| (r[0] as u32, r[1] as u32, r[2] as u32, r[3] as u32)).collect();
    let sorted: BTreeSet<At> = places.iter().copied().collect();
    // a number below 0 is 2^31 or more here, so out of range too
    if !places.iter().eq(&sorted) || places.iter().any(|&at| at.0 > 19 || places::not_reduced(at)) {
        return Err(15);
    }
    if level > 15 { Err(4) } else { Ok(written(&places, level)) }
}

/// Lends the middle of a slice and compares all of it.
fn write(tally: &mut Tally, level: u32, rows: &[i32], out_len: usize) {
    let theirs = oracle_write(level, rows, out_len);
    let mut out = vec![UNTOUCHED as u8; out_len + 2];
    let mut wanted = out.clone();
    let number = bare::region_write(level, rows, &mut out[1..=out_len]);
    if let Ok(list) = &theirs {
        wanted[1..=out_len].copy_from_slice(list);
    }
    let what = || format!("region write {level} of {} numbers, {:?} .., into {out_len}", rows.len(), &rows[..rows.len().min(12)]);
    tally.same(Said { number, values: [] }, Said { number: theirs.err().unwrap_or(0), values: [] }, what);
    tally.also(out == wanted, || format!("{}: the bytes are others", what()));
}

pub fn rows(places: &[At]) -> Vec<i32> {
    places.iter().flat_map(|&(f, i, j, k)| [f, i, j, k]).map(|n| n as i32).collect()
}

fn write_places(tally: &mut Tally, level: u32, places: &[At]) {
    write(tally, level, &rows(places), TRAILER + RECORD * places.len());
}

/// Rows and an output of every length about the right one.
fn each_length(tally: &mut Tally, level: u32, places: &[At]) {
    let rows = rows(places);
    for short in 0..=rows.len().min(8) {
        for out_len in 0..TRAILER + 4 * rows.len() + 40 {
            write(tally, level, &rows[..rows.len() - short], out_len);
        }
    }
}

fn each_row_bit(tally: &mut Tally, level: u32, places: &[At]) {
    let mut rows = rows(places);
    for bit in 0..32 * rows.len() {
        rows[bit / 32] ^= 1 << (bit % 32);
        write(tally, level, &rows, TRAILER + 4 * rows.len());
        rows[bit / 32] ^= 1 << (bit % 32);
    }
}

/// Every level, and every single thing that can be wrong with few rows, at a good and at a bad level.
fn write_small(tally: &mut Tally, c: &mut Chance) {
    for n in [0, 1, 2, 3, 25].into_iter().flat_map(|n| [n; 6]) {
        let places = lists::some_places(c, n);
        for level in (0..20).chain([255, 256, 1 << 16, 1 << 31, u32::MAX]) {
            write_places(tally, level, &places);
        }
        for level in [15, 16] {
            lists::each_spoiled(&places, |other| write_places(tally, level, other));
            each_row_bit(tally, level, &places);
            each_length(tally, level, &places);
        }
    }
}

/// Rows by chance, half of them spoiled, now and then of another width or for an output of another length.
fn write_some(tally: &mut Tally, c: &mut Chance) {
    let n = lists::some_size(c);
    let (mut places, level) = (lists::some_places(c, n), c.below(18) as u32);
    if c.below(2) == 0 {
        places = lists::spoiled(c, &places);
    }
    let cut = if c.below(20) == 0 { c.below(4) as usize } else { 0 };
    let rows = rows(&places);
    let rows = &rows[..rows.len().saturating_sub(cut)];
    let off = if c.below(8) == 0 { c.below(50) as usize } else { 16 };
    write(tally, level, rows, TRAILER + 4 * rows.len() + off - 16);
}

pub fn run_write(tally: &mut Tally) {
    let mut c = Chance(41);
    write_small(tally, &mut c);
    (0..200_000).for_each(|_| write_some(tally, &mut c));
    for places in LARGE.iter() {
        write_places(tally, 9, places);
        (0..4).for_each(|_| write_places(tally, c.below(18) as u32, &lists::spoiled(&mut c, places)));
    }
}

/// The full check; whether the list passed.
fn check(tally: &mut Tally, list: &[u8]) -> bool {
    let theirs = match passed(list) {
        Some((level, places)) => Said::done([level.into(), places.len() as u64]),
        None => Said::refused(15),
    };
    tally.same(ours::region_check(list), theirs, || format!("region check {}", shown(list)));
    theirs.number == 0
}

pub fn run_check(tally: &mut Tally) {
    let (mut c, mut passing) = (Chance(42), 0u64);
    lists::each(&mut c, 200_000, |list| passing += u64::from(check(tally, list)));
    lists::each_large(&mut c, |list| passing += u64::from(check(tally, list)));
    println!("  {passing} lists pass");
}

pub fn read(tally: &mut Tally, list: &[u8], n: u32) {
    let theirs = match count(list) {
        None => Said::refused(15),
        Some(count) if n as usize >= count => Said::refused(5),
        Some(_) => {
            let (f, i, j, k) = record(list, n as usize);
            Said::done([f, i, j, k].map(u64::from))
        }
    };
    tally.same(ours::region_record(list, n), theirs, || format!("region record {n} of {}", shown(list)));
}

/// The records of a list, all or some by chance, and the numbers about the count and far past it.
fn read_some(tally: &mut Tally, c: &mut Chance, list: &[u8]) {
    // the trailer has room for five and a half, so the count is some numbers lower
    let room = (list.len() / RECORD) as u32;
    if room < 40 {
        (0..room + 2).for_each(|n| read(tally, list, n));
    } else {
        (0..40).for_each(|_| read(tally, list, c.below(u64::from(room) + 1) as u32));
        (0..12).for_each(|n| read(tally, list, room - n));
    }
    for n in [c.bits() as u32, i32::MAX as u32, 1 << 31, u32::MAX] {
        read(tally, list, n);
    }
}

pub fn run_record(tally: &mut Tally) {
    let (mut c, mut numbers) = (Chance(43), Chance(44));
    lists::each(&mut c, 100_000, |list| read_some(tally, &mut numbers, list));
    lists::each_large(&mut c, |list| (0..1000).for_each(|_| read_some(tally, &mut numbers, list)));
}

/// A list and the places in it, if it passes.
pub struct Known<'a>(pub &'a [u8], pub Option<BTreeSet<At>>);

impl<'a> Known<'a> {
    fn new(list: &'a [u8]) -> Self {
        Self(list, passed(list).map(|it| it.1))
    }
}

/// Whether a place stands in a list. Of one that does not pass only the refusals are compared, and that the answer is yes or no.
pub fn has(tally: &mut Tally, Known(list, places): &Known, at: At) {
    let said = ours::region_has(list, at);
    let theirs = match (refusal(list, at), places) {
        (0, Some(places)) => Said::done([places.contains(&at).into()]),
        (0, None) => Said::done([said.values[0].min(1)]),
        (n, _) => Said::refused(n),
    };
    tally.same(said, theirs, || format!("region has {at:?} in {}", shown(list)));
}

/// A place and those that differ from it by one in one number; some of them are none.
fn beside((f, i, j, k): At) -> impl Iterator<Item = At> {
    let one = move |n: usize| {
        let mut near = [f, i, j, k];
        near[n / 2] = near[n / 2].wrapping_add([1, u32::MAX][n % 2]);
        near.into()
    };
    std::iter::once((f, i, j, k)).chain((0..8).map(one))
}

/// A place of any kind, or none: faces and coordinates out of range, alone and together, are among them.
fn some_question(c: &mut Chance) -> At {
    let any = c.bits() as u32;
    match c.below(8) {
        0 => (c.below(24) as u32, any, 0, (c.bits() >> c.below(64)) as u32),
        1 => (any, c.below(3) as u32, c.below(3) as u32, c.below(3) as u32),
        2 => (c.below(20) as u32, 0, 0, 0),
        3 => (19 + c.below(3) as u32, c.below(2) as u32, 1, 1),
        _ => places::some_place(c, 1000),
    }
}

/// Records, all or one of so many, what lies beside them, and other places. One record will do where the length is wrong.
fn has_some(tally: &mut Tally, c: &mut Chance, list: &[u8]) {
    let known = Known::new(list);
    let records = count(list).unwrap_or((list.len() / RECORD).min(1));
    for n in (0..records).step_by(records / 30_000 + 1) {
        beside(record(list, n)).for_each(|at| has(tally, &known, at));
    }
    (0..30).for_each(|_| has(tally, &known, some_question(c)));
}

pub fn run_has(tally: &mut Tally) {
    let (mut c, mut questions) = (Chance(45), Chance(46));
    lists::each(&mut c, 60_000, |list| has_some(tally, &mut questions, list));
    lists::each_large(&mut c, |list| has_some(tally, &mut questions, list));
    for places in LARGE.iter() {
        let list = written(places, 9);
        let known = Known::new(&list);
        places.iter().for_each(|&at| has(tally, &known, at));
        (0..500_000).for_each(|_| has(tally, &known, some_question(&mut questions)));
    }
}

/// The same list with other records outside the span of a place's face: that place itself, which a search past the span would find, or
/// noise.
fn elsewhere(c: &mut Chance, list: &[u8], at: At) -> Vec<u8> {
    let (mut other, (start, next), kind) = (list.to_vec(), span(list, at.0), c.below(4));
    for (n, into) in other[..list.len() - TRAILER].chunks_mut(RECORD).enumerate() {
        if !(start..next).contains(&n) {
            let (f, i, j, k) = match kind {
                0 | 1 => at,
                2 => (0, 0, 0, 0),
                _ => (c.below(20) as u32, c.bits() as u32, 0, c.bits() as u32),
            };
            into.copy_from_slice([f, i, j, k].map(u32::to_le_bytes).as_flattened());
        }
    }
    other
}

/// A list and one that agrees with it in the trailer and in a face's span get the same answer there, whatever else stands in them.
fn within_span(tally: &mut Tally, c: &mut Chance, list: &[u8]) {
    let at = match count(list) {
        None => return,
        Some(0) => some_question(c),
        Some(records) => record(list, c.below(records as u64) as usize),
    };
    if at.0 > 19 {
        return;
    }
    let other = elsewhere(c, list, at);
    for near in beside(at).filter(|near| near.0 == at.0) {
        let theirs = Said { number: refusal(list, near), values: ours::region_has(list, near).values };
        let what = || format!("region span {near:?} in {}, beside {}", shown(&other), shown(list));
        tally.same(ours::region_has(&other, near), theirs, what);
    }
}

pub fn run_span(tally: &mut Tally) {
    let (mut c, mut others) = (Chance(47), Chance(48));
    lists::each(&mut c, 200_000, |list| (0..3).for_each(|_| within_span(tally, &mut others, list)));
    lists::each_large(&mut c, |list| within_span(tally, &mut others, list));
}
