//! The longest list that there may be, of 2^31 - 1 records, and one of a record more: zeros that the machine lays out only where they
//! are touched, so that 34 gigabytes cost next to nothing.
use crate::{Tally, ours, ours::Said, regions::{self, Known, RECORD, TRAILER}};

unsafe extern "C" {
    fn mmap(at: *mut u8, length: usize, protection: i32, flags: i32, file: i32, offset: i64) -> *mut u8;
    fn munmap(at: *mut u8, length: usize) -> i32;
}

/// The most records that a list may have.
const MOST: u32 = i32::MAX as u32;

/// Lends zeros, if the machine gives them: to be read and written, of no file, and with no room set aside for them.
fn with_zeros(length: usize, work: impl FnOnce(&mut [u8])) -> bool {
    let at = unsafe { mmap(std::ptr::null_mut(), length, 3, 0x4022, -1, 0) };
    let given = at as isize != -1;
    if given {
        work(unsafe { std::slice::from_raw_parts_mut(at, length) });
        unsafe { munmap(at, length) };
    }
    given
}

fn put(list: &mut [u8], at: usize, number: u32) {
    list[at..at + 4].copy_from_slice(&number.to_le_bytes());
}

/// Starts of the faces, level 9, and the count; here and there a record that is not zero, each another.
fn fill(list: &mut [u8], starts: [u32; 20], count: u32) {
    let trailer = list.len() - TRAILER;
    starts.into_iter().chain([9, count]).enumerate().for_each(|(n, number)| put(list, trailer + 4 * n, number));
    for n in numbers().filter(|&n| n < count) {
        (0..4).for_each(|part| put(list, RECORD * n as usize + 4 * part, n ^ part as u32));
    }
}

/// Record numbers about every power of two, where a shorter number would come round again.
fn numbers() -> impl Iterator<Item = u32> {
    (0..32).map(|power| 1u32 << power).flat_map(|n| [n - 1, n, n + 1]).chain([u32::MAX])
}

fn ask(tally: &mut Tally, list: &[u8]) {
    numbers().for_each(|n| regions::read(tally, list, n));
    let known = Known(list, None);
    (0..22).for_each(|face| [0, 1, 5].iter().for_each(|&i| regions::has(tally, &known, (face, i, 0, 1))));
    (0..22).for_each(|face| regions::has(tally, &known, (face, 1, 1, 1)));
}

/// All records on the first face, on the last, and half of them on two; then starts that are wrong.
fn longest(tally: &mut Tally, list: &mut [u8]) {
    let half = |n: usize| [0, MOST / 2, MOST][usize::from(n > 3) + usize::from(n > 11)];
    for starts in [std::array::from_fn(|n| if n == 0 { 0 } else { MOST }), [0; 20], std::array::from_fn(half), [MOST + 1; 20]] {
        fill(list, starts, MOST);
        ask(tally, list);
    }
}

fn too_long(tally: &mut Tally, list: &mut [u8]) {
    for count in [MOST, MOST + 1, 0, u32::MAX] {
        fill(list, [0; 20], count);
        ask(tally, list);
        tally.same(ours::region_check(list), Said::refused(15), || format!("region check of a list too long, with the count {count}"));
    }
}

pub fn run(tally: &mut Tally) {
    let length = TRAILER + RECORD * MOST as usize;
    let given = with_zeros(length, |list| longest(tally, list)) && with_zeros(length + RECORD, |list| too_long(tally, list));
    if !given {
        println!("  the machine gives no 34 gigabytes of zeros: not all of it was asked");
    }
}
