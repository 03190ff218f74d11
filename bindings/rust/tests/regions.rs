//! Region lists: written byte by byte as stated, read back, checked, and asked whether a place is in them; and every refusal in its order.
use heddleplume::region::{Facts, RECORD, TAIL, check, has, list_of, record, write};
use heddleplume::{CellLevel, FaceIJK, Frame, Refusal, Region, locate_all};

const LEVEL: CellLevel = CellLevel(9);
const OLD: u8 = 0xa5;
const LARGEST: i32 = 1 << 26;

/// Places on the faces 0, 3 and 19, one of them with the largest coordinates that there are.
const ROWS: [[i32; 4]; 5] = [[0, 0, 0, 0], [3, 0, 1, 300], [3, 9433, 0, 4829], [19, 0, 5, 6], [19, LARGEST, LARGEST, 0]];

/// A good list of them.
fn good() -> Vec<u8> {
    list_of(LEVEL, &ROWS).expect("they are places in order")
}

/// Number n of a list, counted from its end: 1 is the count, 2 the level, 22 - f the start of face f.
fn from_end(list: &[u8], n: usize) -> u32 {
    let at = list.len() - 4 * n;
    u32::from_le_bytes(list[at..at + 4].try_into().expect("a number has four bytes"))
}

fn start_of(list: &[u8], face: u32) -> u32 {
    from_end(list, 22 - face as usize)
}

/// A list in which number n, from its end, is another.
fn changed(list: &[u8], n: usize, number: u32) -> Vec<u8> {
    let (mut list, at) = (list.to_vec(), list.len() - 4 * n);
    list[at..at + 4].copy_from_slice(&number.to_le_bytes());
    list
}

/// The rows of a list, read here and not by the library.
fn rows_of(list: &[u8]) -> Vec<[i32; 4]> {
    let number = |bytes: &[u8]| i32::from_le_bytes(bytes.try_into().expect("a number has four bytes"));
    let records = list[..list.len() - TAIL].chunks(RECORD);
    records.map(|row| [number(&row[..4]), number(&row[4..8]), number(&row[8..12]), number(&row[12..])]).collect()
}

fn place_of(row: [i32; 4]) -> FaceIJK {
    row.map(|number| u32::try_from(number).expect("it is the row of a place")).into()
}

#[test]
fn a_list_byte_by_byte() {
    let records: [&[u8]; 2] = [b"\x01\0\0\0\x05\x04\x03\x02\0\0\0\0\x01\0\0\0", b"\x03\0\0\0\0\0\0\0\0\0\0\0\0\x01\0\0"];
    // Face 0 is empty and begins at 0, as face 1 does; 2 and 3 begin at 1; those from 4 on are empty and begin at the count.
    let starts: Vec<u8> = [0, 0, 1, 1].into_iter().chain([2; 16]).flat_map(|start: u32| start.to_le_bytes()).collect();
    let list = [records.concat(), starts, b"\x0f\0\0\0\x02\0\0\0".to_vec()].concat();
    assert_eq!(list_of(CellLevel(15), &[[1, 0x02030405, 0, 1], [3, 0, 0, 256]]), Ok(list));
}

#[test]
fn an_empty_list() {
    let list = list_of(LEVEL, &[]).unwrap();
    assert_eq!(list, [&[0; 80][..], b"\x09\0\0\0\0\0\0\0"].concat());
    let region = Region::open(list).unwrap();
    assert_eq!((region.level(), region.count(), region.records().len()), (LEVEL, 0, 0));
    assert_eq!(region.record(0), Err(Refusal::BadRange));
    for face in 0..20 {
        assert_eq!(region.has(FaceIJK::new(face, 0, 0, 0)), Ok(false));
    }
}

#[test]
fn what_is_written_is_read() {
    for level in 0..16 {
        let list = list_of(CellLevel(level), &ROWS).unwrap();
        assert_eq!(check(&list), Ok(Facts { level: CellLevel(level), count: 5 }));
        let region = Region::open(&list).unwrap();
        assert_eq!((region.level(), region.count(), region.as_bytes()), (CellLevel(level), 5, &list[..]));
        assert_eq!(region.records().collect::<Vec<_>>(), ROWS.map(place_of));
        for (n, row) in (0..).zip(ROWS) {
            assert_eq!((region.record(n), record(&list, n)), (Ok(place_of(row)), Ok(place_of(row))));
        }
    }
}

/// Bytes that are lent and bytes that are given away.
#[test]
fn a_region_owns_or_borrows() {
    let list = good();
    let lent = Region::open(&list[..]).unwrap();
    assert_eq!(Region::open(list.clone()), Ok(lent.clone()));
    assert_eq!(Region::open(&list[1..]), Err(Refusal::BadList));
}

#[test]
fn a_batch_sorted_and_written_as_it_is() {
    let vectors = [[1.0, 0.0, 0.0], [0.6, 0.0, 0.8], [0.0, 0.0, 1.0], [0.6, 0.0, 0.8], [-1.0, 0.0, 0.0]];
    let mut rows = [[7; 4]; 5];
    assert_eq!(locate_all(&Frame::default(), LEVEL, &vectors, &mut rows, 0), Ok(0));
    let mut sorted = rows.to_vec();
    sorted.sort_unstable();
    assert_eq!(list_of(LEVEL, &sorted), Err(Refusal::BadList), "one place comes twice");
    sorted.dedup();
    let region = Region::open(list_of(LEVEL, &sorted).unwrap()).unwrap();
    assert_eq!(region.count(), 4);
    for row in rows {
        assert_eq!(region.has(place_of(row)), Ok(true));
    }
}

#[test]
fn a_row_that_a_batch_refused_is_no_place() {
    let mut rows = [[7; 4]; 2];
    assert_eq!(locate_all(&Frame::default(), LEVEL, &[[f64::NAN; 3], [1.0, 0.0, 0.0]], &mut rows, 0), Ok(1));
    assert_eq!(list_of(LEVEL, &rows), Err(Refusal::BadList));
    assert!(list_of(LEVEL, &rows[1..]).is_ok());
}

/// Lends so many bytes and expects this refusal, and the bytes as they were.
fn write_keeps(refusal: Refusal, level: CellLevel, rows: &[[i32; 4]], lent: usize) {
    let mut out = vec![OLD; lent];
    assert_eq!(write(level, rows, &mut out), Err(refusal), "{rows:?}");
    assert!(out.iter().all(|&byte| byte == OLD), "a refusal wrote");
}

#[test]
fn writing_refuses_2_15_4() {
    let unsorted = [ROWS[1], ROWS[0]];
    let bytes = |rows: &[[i32; 4]]| rows.len() * RECORD + TAIL;
    for lent in [0, TAIL - 1, TAIL, bytes(&unsorted) - 1, bytes(&unsorted) + 1, bytes(&unsorted) + RECORD] {
        write_keeps(Refusal::BadRows, CellLevel(16), &unsorted, lent);
    }
    write_keeps(Refusal::BadRows, CellLevel(16), &[], TAIL - 1);
    write_keeps(Refusal::BadRows, CellLevel(16), &[], TAIL + 1);
    let misplaced = [[20, 0, 0, 0], [-1, 0, 0, 0], [-6, 0, 0, 0], [0, 1, 1, 1], [0, LARGEST + 1, 0, 0], [0, 0, LARGEST + 1, 0]];
    let more = [[0, 0, 0, LARGEST + 1], [0, -1, 0, 0], [0, 0, -1, 0], [0, 0, 0, -1], [i32::MAX; 4], [i32::MIN; 4]];
    for row in misplaced.into_iter().chain(more) {
        write_keeps(Refusal::BadList, CellLevel(16), &[row], RECORD + TAIL);
        write_keeps(Refusal::BadList, LEVEL, &[ROWS[0], row], 2 * RECORD + TAIL);
    }
    // Once the same, and once for each of the four numbers the second below the first, whatever the numbers after it.
    for second in [[7, 3, 4, 0], [6, 9, 9, 0], [7, 2, 9, 0], [7, 3, 3, 0]] {
        write_keeps(Refusal::BadList, LEVEL, &[[7, 3, 4, 0], second], 2 * RECORD + TAIL);
    }
    write_keeps(Refusal::BadList, LEVEL, &[[7, 3, 0, 4], [7, 3, 0, 3]], 2 * RECORD + TAIL);
    for level in [16, 17, 256, u32::MAX] {
        write_keeps(Refusal::BadLevel, CellLevel(level), &ROWS, bytes(&ROWS));
        assert_eq!(list_of(CellLevel(level), &ROWS), Err(Refusal::BadLevel));
    }
}

/// What a list is must pass the check, and nothing else: one whose bytes are those that its own rows and level give.
fn is_a_list(list: &[u8]) -> bool {
    let whole = list.len() >= TAIL && (list.len() - TAIL) % RECORD == 0;
    whole && list_of(CellLevel(from_end(list, 2)), &rows_of(list)).is_ok_and(|written| written == list)
}

/// Whether the quick question refuses a list as such: wrong length, or the two starts out of order or past the count.
fn is_refused(list: &[u8], face: u32) -> bool {
    if list.len() < TAIL || (list.len() - TAIL) as u64 != RECORD as u64 * u64::from(from_end(list, 1)) {
        return true;
    }
    let count = from_end(list, 1);
    let next = if face == 19 { count } else { start_of(list, face + 1) };
    start_of(list, face) > next || next > count
}

/// Each byte of a list in turn is every other one: a record, a start, the level, the count. Where the check passes, the quick answer is
/// that of reading every record; where it does not, the quick question refuses exactly when it should.
#[test]
fn every_change_of_one_byte() {
    let list = list_of(LEVEL, &ROWS[..4]).unwrap();
    let asked: Vec<FaceIJK> = (0..20).flat_map(|face| [FaceIJK::new(face, 0, 0, 0), FaceIJK::new(face, 0, 5, 6)]).collect();
    for (at, other) in (0..list.len()).flat_map(|at| (1..=255).map(move |other| (at, other))) {
        let mut list = list.clone();
        list[at] ^= other;
        let passes = is_a_list(&list);
        assert_eq!(check(&list).is_ok(), passes, "byte {at} is {}", list[at]);
        for &place in &asked {
            let answer = has(&list, place);
            assert_eq!(answer == Err(Refusal::BadList), is_refused(&list, place.face), "byte {at} is {}: {place:?}", list[at]);
            if passes {
                assert_eq!(answer, Ok(rows_of(&list).into_iter().any(|row| place_of(row) == place)), "byte {at}: {place:?}");
            }
        }
    }
}

/// Cut or longer at its beginning, where the tail stays whole; and cut at its end.
#[test]
fn every_length() {
    let (list, longer) = (good(), [vec![0; RECORD + 1], good()].concat());
    for length in (0..=longer.len()).filter(|length| *length != list.len()) {
        let part = &longer[longer.len() - length..];
        assert_eq!((check(part), record(part, u32::MAX)), (Err(Refusal::BadList), Err(Refusal::BadList)), "{length}");
        assert_eq!(has(part, FaceIJK::new(20, 1, 1, 1)), Err(Refusal::BadList), "{length}");
    }
    for length in 0..list.len() {
        assert_eq!(Region::open(&list[..length]), Err(Refusal::BadList), "{length}");
    }
}

/// Counts for which 16 times the count, in 32 bits, is that of the bytes once more.
#[test]
fn counts_that_wrap() {
    for count in [5 + (1 << 28), 5 + (1 << 31), 5 + (15 << 28)] {
        let list = changed(&good(), 1, count);
        assert_eq!((check(&list), record(&list, 0)), (Err(Refusal::BadList), Err(Refusal::BadList)));
        assert_eq!(has(&list, place_of(ROWS[0])), Err(Refusal::BadList));
    }
}

#[test]
fn reading_refuses_15_5() {
    let list = good();
    for number in [5, 6, 1 << 28, u32::MAX] {
        assert_eq!(record(&list, number), Err(Refusal::BadRange), "{number}");
        assert_eq!(Region::open(&list).unwrap().record(number), Err(Refusal::BadRange));
    }
    assert_eq!(record(&list[1..], 5), Err(Refusal::BadList));
    // Nothing but the length is tested: what is there is given out.
    assert_eq!(record(&changed(&list, 2, 77), 4), Ok(place_of(ROWS[4])));
    assert_eq!(record(&changed(&list, 22 + 4 * 5, 20), 0), Ok(FaceIJK::new(20, 0, 0, 0)));
}

#[test]
fn membership_refuses_15_3_10() {
    let list = good();
    let (beyond, unreduced) = (FaceIJK::new(20, 1, 1, 1), FaceIJK::new(3, 1, 1, 1));
    assert_eq!(has(&list[1..], beyond), Err(Refusal::BadList));
    assert_eq!(has(&list[1..], unreduced), Err(Refusal::BadList));
    // Face 3 begins after face 4 does, or past the count, or face 4 does: 15 comes before 10, and a face above 19 has no starts.
    for bad in [changed(&list, 22 - 3, 4), changed(&list, 22 - 3, u32::MAX), changed(&list, 22 - 4, 0), changed(&list, 22 - 4, 6)] {
        assert_eq!(has(&bad, unreduced), Err(Refusal::BadList));
        assert_eq!(has(&bad, FaceIJK::new(3, 0, 0, 0)), Err(Refusal::BadList));
        assert_eq!(has(&bad, beyond), Err(Refusal::BadFace));
        // Of the starts only two are read: those of face 17 are as they were.
        assert_eq!(has(&bad, FaceIJK::new(17, 1, 1, 1)), Err(Refusal::NotReduced));
        assert_eq!(Region::open(bad), Err(Refusal::BadList));
    }
    let region = Region::open(list).unwrap();
    for face in [20, 21, 256, u32::MAX] {
        assert_eq!(region.has(FaceIJK::new(face, 1, 1, 1)), Err(Refusal::BadFace));
    }
    let above = LARGEST as u32 + 1;
    for place in [unreduced, FaceIJK::new(3, above, 0, 0), FaceIJK::new(19, 0, above, 0), FaceIJK::new(0, 0, 0, u32::MAX)] {
        assert_eq!(region.has(place), Err(Refusal::NotReduced), "{place:?}");
    }
}

/// The last face has no next one: its end is the count, whatever stands after its start.
#[test]
fn the_last_face() {
    let list = good();
    assert_eq!(has(&list, FaceIJK::new(19, 0, 5, 6)), Ok(true));
    assert_eq!(has(&changed(&list, 22 - 19, 6), FaceIJK::new(19, 0, 5, 6)), Err(Refusal::BadList));
    // Nothing is claimed of a list that does not pass, but the level is not looked at.
    assert_eq!(has(&changed(&list, 2, 6), FaceIJK::new(19, 0, 5, 6)), Ok(true));
    assert_eq!(has(&changed(&list, 2, 0), FaceIJK::new(19, 0, 5, 6)), Ok(true));
}

/// Of a face that is asked about: none, one, two, three or fifty places.
const SIZES: [i32; 6] = [3, 0, 1, 50, 2, 0];

/// Lists of many shapes: every place of each face is in it, and what lies before, between and after them is not.
#[test]
fn both_ends_of_every_face() {
    for shift in 0..6 {
        let size_of = |face: i32| SIZES[((face + shift) % 6) as usize];
        let rows: Vec<[i32; 4]> = (0..20).flat_map(|face| (0..size_of(face)).map(move |n| [face, 2 * n + 1, 0, 5])).collect();
        let region = Region::open(list_of(LEVEL, &rows).unwrap()).unwrap();
        for face in 0..20 {
            for i in 0..2 * size_of(face) + 2 {
                let in_it = i % 2 == 1 && i < 2 * size_of(face);
                assert_eq!(region.has(place_of([face, i, 0, 5])), Ok(in_it), "face {face}, i {i}");
                assert_eq!(region.has(place_of([face, i, 0, 4])), Ok(false));
                assert_eq!(region.has(place_of([face, i, 0, 6])), Ok(false));
            }
        }
    }
}
