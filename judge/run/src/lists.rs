//! Region lists to ask about: places of every spread, and lists that are changed in every way. What a changed list is worth is left to
//! the rules in `regions`; some changes leave one that passes.
use crate::{borders::along, chance::Chance, ours::At, places::LARGEST, regions::{RECORD, TRAILER, written}};
use std::sync::LazyLock;

/// Lists small enough to be changed in every single way.
const SMALL: [usize; 4] = [0, 1, 3, 25];
/// How many of each size are.
const EACH: u64 = 8;

/// All faces, any of them, one, the first, or the last.
fn some_faces(c: &mut Chance) -> Vec<u32> {
    match c.below(6) {
        0 => vec![0],
        1 => vec![19],
        2 => vec![c.below(20) as u32],
        3 => {
            let chosen = c.below(1 << 20) | 1 << c.below(20);
            (0..20).filter(|face| chosen >> face & 1 == 1).collect()
        }
        _ => (0..20).collect(),
    }
}

/// A coordinate up to `most`, often one of the ends.
fn some_coordinate(c: &mut Chance, most: u32) -> u32 {
    match c.below(6) {
        0 => 0,
        1 => most,
        _ => c.below(u64::from(most) + 1) as u32,
    }
}

/// So many places on these faces, sorted: as many are drawn at a time, and what is too much is left out evenly.
fn spread(c: &mut Chance, n: usize, faces: &[u32], most: u32) -> Vec<At> {
    let mut found = vec![];
    while found.len() < n {
        found.extend((0..n).map(|_| {
            let face = faces[c.below(faces.len() as u64) as usize];
            along(c.below(3), face, some_coordinate(c, most), some_coordinate(c, most))
        }));
        found.sort();
        found.dedup();
    }
    (0..n).map(|m| found[m * found.len() / n]).collect()
}

/// Close together, so that neighbours stand in the list too, as on a real face, or as far apart as can be.
pub fn some_places(c: &mut Chance, n: usize) -> Vec<At> {
    let (faces, most) = (some_faces(c), [n.isqrt() as u32 + 1, 20_000, LARGEST][c.below(3) as usize]);
    spread(c, n, &faces, most)
}

/// Mostly few.
pub fn some_size(c: &mut Chance) -> usize {
    match c.below(300) {
        0 => c.below(5000) as usize,
        1..20 => 0,
        _ => c.below(40) as usize,
    }
}

/// Sorted places of a million records: all faces, only the first, only the last, and some with gaps before, between and behind.
pub static LARGE: LazyLock<[Vec<At>; 4]> = LazyLock::new(|| {
    let (mut c, all, some) = (Chance(40), Vec::from_iter(0..20), vec![2, 3, 11, 17]);
    [(all, LARGEST), (vec![0], 1001), (vec![19], LARGEST), (some, 20_000)].map(|(faces, most)| spread(&mut c, 1_000_000, &faces, most))
});

/// In how many ways a place is made wrong.
const WAYS: usize = 14;

/// One of its numbers past its range or, as a row has it, below 0; no coordinate at 0; or a batch's refused row.
fn wrong((f, i, j, k): At, way: usize) -> At {
    let mut numbers = [f, i, j, k];
    match way {
        0 => return (20, i, j, k),
        12 => return (f, i.max(1), j.max(1), k.max(1)),
        13 => return (-6i32 as u32, 0, 0, 0),
        _ => numbers[way % 4] = [LARGEST + 1, 1 << 31, u32::MAX][way / 4],
    }
    numbers.into()
}

/// Every wrong place at the first, the middle and the last record, where it falls and sorted in.
fn each_wrong(places: &[At], ask: &mut impl FnMut(&[At])) {
    for at in [0, places.len() / 2, places.len().saturating_sub(1)] {
        for way in 0..WAYS {
            let mut all = places.to_vec();
            match all.get_mut(at) {
                Some(place) => *place = wrong(*place, way),
                None => all.push(wrong((0, 0, 0, 0), way)),
            }
            ask(&all);
            all.sort_unstable();
            ask(&all);
        }
    }
}

/// Places with something wrong: a wrong one, two exchanged, one twice. A trailer that is made from them fits them.
pub fn each_spoiled(places: &[At], mut ask: impl FnMut(&[At])) {
    each_wrong(places, &mut ask);
    for a in 0..places.len() {
        let mut twice = places.to_vec();
        twice.insert(a, places[a]);
        ask(&twice);
        for b in 0..a {
            let mut other = places.to_vec();
            other.swap(a, b);
            ask(&other);
            other.copy_from_slice(places);
            other[a] = places[b];
            ask(&other);
        }
    }
}

/// One change of many, to places of any number.
pub fn spoiled(c: &mut Chance, places: &[At]) -> Vec<At> {
    let (mut all, way) = (places.to_vec(), c.below(WAYS as u64) as usize);
    if all.is_empty() {
        return vec![wrong((0, 0, 0, 0), way)];
    }
    let (n, last) = (all.len() as u64, all.len() - 1);
    let (a, b) = (c.below(n) as usize, c.below(n) as usize);
    match c.below(8) {
        0 => all.insert(a, places[a]),
        1 => all.swap(a, b),
        2 => all.swap(a, (a + 1).min(last)),
        3 => all[a] = places[b],
        4 => all.rotate_left(a),
        _ => {
            let at = [0, last / 2, last, a][c.below(4) as usize];
            all[at] = wrong(all[at], way);
            if c.below(2) == 0 {
                all.sort_unstable();
            }
        }
    }
    all
}

/// Where a number of the trailer stands: starts 0..20, the level 20, the count 21.
fn in_trailer(list: &mut [u8], number: usize) -> &mut [u8; 4] {
    let from = list.len() - TRAILER + 4 * number;
    (&mut list[from..from + 4]).try_into().expect("four bytes")
}

/// Numbers to stand in the place of one.
fn others(was: u32, count: usize) -> [u32; 9] {
    let count = count as u32;
    [was.wrapping_sub(1), was.wrapping_add(1), 0, count, count.wrapping_sub(1), count + 1, i32::MAX as u32, 1 << 31, u32::MAX]
}

/// Each number of the trailer changed to each of its others.
fn each_number(list: &[u8], count: usize, ask: &mut impl FnMut(&[u8])) {
    for number in 0..22 {
        let mut changed = list.to_vec();
        let was = *in_trailer(&mut changed, number);
        for other in others(u32::from_le_bytes(was), count) {
            *in_trailer(&mut changed, number) = other.to_le_bytes();
            ask(&changed);
        }
    }
}

fn each_bit(list: &[u8], ask: &mut impl FnMut(&[u8])) {
    let mut changed = list.to_vec();
    for bit in 0..8 * list.len() {
        changed[bit / 8] ^= 1 << (bit % 8);
        ask(&changed);
        changed[bit / 8] ^= 1 << (bit % 8);
    }
}

/// Every length up to a record more, at the end and at the front.
fn each_length(list: &[u8], ask: &mut impl FnMut(&[u8])) {
    for length in 0..list.len() + RECORD + 2 {
        let mut behind = list.to_vec();
        behind.resize(length, 0);
        ask(&behind);
        let mut before = vec![0; length.saturating_sub(list.len())];
        before.extend(&list[list.len().saturating_sub(length)..]);
        ask(&before);
    }
}

/// The starts of a list with fewer records, under the level and the count of this one.
fn stale(list: &mut [u8], fewer: &[At]) {
    let (from, old) = (list.len() - TRAILER, written(fewer, 0));
    list[from..from + 80].copy_from_slice(&old[old.len() - TRAILER..][..80]);
}

/// One change of many, to a list of any size.
pub fn damaged(c: &mut Chance, places: &[At], level: u32) -> Vec<u8> {
    let (mut list, number) = (written(places, level), c.below(22) as usize);
    match c.below(9) {
        0 => *in_trailer(&mut list, number) = (c.bits() as u32).to_le_bytes(),
        1 | 2 => {
            let was = u32::from_le_bytes(*in_trailer(&mut list, number));
            *in_trailer(&mut list, number) = others(was, places.len())[c.below(9) as usize].to_le_bytes();
        }
        3 => (0..20).for_each(|n| *in_trailer(&mut list, n) = (c.below(places.len() as u64 + 2) as u32).to_le_bytes()),
        4 => stale(&mut list, &places[c.below(places.len() as u64 + 1) as usize..]),
        5 => list.resize(c.below(list.len() as u64 + 40) as usize, 0),
        6 => {
            let at = c.below(list.len() as u64) as usize;
            list[at] ^= 1 << c.below(8);
        }
        _ => return written(&spoiled(c, places), level),
    }
    list
}

/// Small lists in every way, and then so many by chance; a list as it should be, then changed.
pub fn each(c: &mut Chance, many: u64, mut ask: impl FnMut(&[u8])) {
    for n in SMALL.iter().flat_map(|&n| (0..EACH).map(move |_| n)) {
        let (places, level) = (some_places(c, n), c.below(16) as u32);
        let list = written(&places, level);
        each_number(&list, n, &mut ask);
        each_bit(&list, &mut ask);
        each_length(&list, &mut ask);
        each_spoiled(&places, |other| ask(&written(other, level)));
    }
    for _ in 0..many {
        let n = some_size(c);
        let (places, level) = (some_places(c, n), c.below(17) as u32);
        ask(&written(&places, level));
        ask(&damaged(c, &places, level));
    }
}

/// Lists of a million records, as they should be and then changed.
pub fn each_large(c: &mut Chance, mut ask: impl FnMut(&[u8])) {
    for places in LARGE.iter() {
        ask(&written(places, 9));
        (0..6).for_each(|_| ask(&damaged(c, places, 9)));
    }
}
