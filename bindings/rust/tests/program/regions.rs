//! Region lists: written, checked, asked and listed; damaged files, refused lines, and old files that must outlive them.
use std::fs::{self, OpenOptions, Permissions};
use std::os::unix::fs::{PermissionsExt, symlink};
use std::process::Command;

use heddleplume::CellLevel;
use heddleplume::region::list_of;

use super::{Folder, ended, fed, output_of, program};

/// Four places, and a line with one of them once more.
const LINES: &str = "face,i,j,k\n9,0,3944,11640\n3,9433,0,4829\n19,0,0,0\n9,0,3944,11640\n3,0,0,1\n";
const PLACES: [[i32; 4]; 4] = [[3, 0, 0, 1], [3, 9433, 0, 4829], [9, 0, 3944, 11640], [19, 0, 0, 0]];
const LISTED: &str = "3 0 0 1\n3 9433 0 4829\n9 0 3944 11640\n19 0 0 0\n";

fn list() -> Vec<u8> {
    list_of(CellLevel(9), &PLACES).expect("they are places in order")
}

/// A folder with the region `north.region`.
fn with_north(test: &str) -> Folder {
    let folder = Folder::of(test);
    folder.put("north.region", &list());
    folder
}

fn refuses(folder: &Folder, words: &str, said: &str) {
    assert_eq!(folder.asked(words), (Some(1), String::new(), format!("heddleplume: {said}\n")), "{words}");
}

#[test]
fn written_checked_asked_and_listed() {
    let folder = Folder::of("written");
    let written = folder.fed("region write 9 north.region", LINES.as_bytes());
    assert_eq!(written, (Some(0), String::new(), "rows: 5, repeats: 1, places: 4\n".into()));
    assert_eq!(folder.bytes("north.region"), list());
    let answers = |words: &str, answer: &str| assert_eq!(folder.asked(words), (Some(0), answer.into(), String::new()), "{words}");
    answers("region check north.region", "level 9 places 4\n");
    answers("region has north.region 9 0 3944 11640", "yes\n");
    answers("region has north.region 9 0 3944 11641", "no\n");
    answers("region has north.region 0 0 0 0", "no\n");
    answers("region list north.region", LISTED);
    refuses(&folder, "region has north.region 20 1 1 1", "refused 3 BadFace: pass a face 0..19");
    refuses(&folder, "region has north.region 3 1 1 1", "refused 10 NotReduced: subtract the least coordinate from all three first");
    assert_eq!(folder.names(), ["north.region"]);
}

#[test]
fn to_standard_output() {
    for input in [LINES, LISTED] {
        let output = output_of(&mut program("region write 9"), input.as_bytes());
        assert_eq!((output.status.code(), output.stdout), (Some(0), list()));
    }
    let empty = output_of(&mut program("region write 15"), b"");
    assert_eq!((empty.status.code(), empty.stdout), (Some(0), list_of(CellLevel(15), &[]).unwrap()));
    let full = OpenOptions::new().write(true).open("/dev/full").expect("Linux has it");
    let (status, _, said) = ended(program("region write 9").stdout(full).output().unwrap());
    assert_eq!(status, Some(1));
    assert!(said.starts_with("heddleplume: the output could not be written and is not whole: "), "{said}");
}

#[test]
fn an_empty_region() {
    let folder = Folder::of("empty");
    assert_eq!(folder.fed("region write 0 none.region", b"").0, Some(0));
    assert_eq!(folder.asked("region check none.region").1, "level 0 places 0\n");
    assert_eq!(folder.asked("region list none.region"), (Some(0), String::new(), String::new()));
    assert_eq!(folder.asked("region has none.region 19 0 0 0").1, "no\n");
}

/// What a batch prints is read as it is, with its header and without.
#[test]
fn a_batch_becomes_a_region() {
    let folder = Folder::of("batched");
    for vectors in ["x,y,z\n1,0,0\n0.6,0,0.8\n1,0,0\n", "0.6,0,0.8\n1,0,0\n"] {
        let places = fed("batch 9", vectors.as_bytes()).1;
        assert_eq!(folder.fed("region write 9 two.region", places.as_bytes()).0, Some(0));
        assert_eq!(folder.asked("region list two.region").1, "3 9433 0 4829\n9 0 3944 11640\n");
    }
    let places = fed("batch 9", b"1,0,0\nnan,nan,nan\n").1;
    let said = "heddleplume: refused 14 BadLine: line 2 is `refused,6,BadNumber,`, not FACE,I,J,K or FACE I J K in whole numbers: \
                write it so, or leave it out\n";
    assert_eq!(folder.fed("region write 9 one.region", places.as_bytes()), (Some(1), String::new(), said.into()));
    assert_eq!(folder.names(), ["two.region"]);
}

/// An answer of `place` has leftovers after its four numbers, and is told from a row.
#[test]
fn an_answer_of_place_is_no_row() {
    let folder = Folder::of("leftovers");
    let answer = folder.asked("place 9 0.6 0 0.8").1;
    let said = "heddleplume: refused 14 BadLine: line 1 is `3 9433 0 4829 0.5130770704708993 0.6781914251287162`, not FACE,I,J,K or \
                FACE I J K in whole numbers: write it so, or leave it out\n";
    assert_eq!(folder.fed("region write 9 one.region", answer.as_bytes()), (Some(1), String::new(), said.into()));
    assert!(folder.names().is_empty());
}

/// Nothing goes out, to neither place, and the old file stays as it was.
#[test]
fn refused_lines_write_nothing() {
    let folder = with_north("refused");
    let no_place = "15 BadList: line 2 is";
    for (words, rows, refusal) in [
        ("9", "3 0 0 1\n\n", "14 BadLine: line 2 is empty or much too long, not "),
        ("9", "3 0 0 1\n3 0 1\n", "14 BadLine: line 2 is `3 0 1`, not "),
        ("9", "3 0 0 1\n20 0 0 0\n", &format!("{no_place} 20 0 0 0, which is no place: its face is not 0..19")),
        ("9", "3 0 0 1\n-6,0,0,0\n", &format!("{no_place} -6 0 0 0, which is no place: a batch has refused it (6 BadNumber)")),
        ("16", "3 0 0 1\n3 1 2 3\n", &format!("{no_place} 3 1 2 3, which is no place: none of its I J K is 0, or one is not 0..")),
        ("16", "3 0 0 1\n", "4 BadLevel: pass a cell level 0..15"),
    ] {
        for file in ["", "north.region", "new.region"] {
            let (status, printed, said) = folder.fed(&format!("region write {words} {file}"), rows.as_bytes());
            assert_eq!((status, printed.as_str()), (Some(1), ""), "{rows}");
            assert!(said.starts_with(&format!("heddleplume: refused {refusal}")) && said.lines().count() == 1, "{said}");
        }
    }
    assert_eq!((folder.names(), folder.bytes("north.region")), (vec!["north.region".to_string()], list()));
}

/// Each kind of damage, and what is said of it, whatever is asked.
#[test]
fn damaged_files() {
    let folder = Folder::of("damaged");
    let (list, end) = (list(), list().len());
    let with = |at: usize, byte: u8| [&list[..at], &[byte], &list[at + 1..]].concat();
    let length = |bytes: usize| format!("its length, {bytes} bytes, does not fit the count at its end");
    for (damaged, what) in [
        (vec![], length(0)),
        (b"face,i,j,k\n".to_vec(), length(11)),
        (list[..end - 1].to_vec(), length(151)),
        (list[16..].to_vec(), length(136)),
        ([&list[..], b"\n"].concat(), length(153)),
        (with(end - 4, 5), length(152)),
        (with(16, 20), "record 1, of which the first is 0, is 20 9433 0 4829: its face is not 0..19".into()),
        (with(24, 1), "record 1, of which the first is 0, is 3 9433 1 4829: none of its I J K is 0, or one is not 0..67108864".into()),
        (with(16, 2), "record 1, of which the first is 0, is 2 9433 0 4829: it does not come after the one before it".into()),
        (with(32, 3), "record 2, of which the first is 0, is 3 0 3944 11640: it does not come after the one before it".into()),
        (with(64, 1), "the starts of the faces at its end are not those of its records".into()),
        (with(end - 9, 1), "the starts of the faces at its end are not those of its records".into()),
        (with(end - 8, 16), "its level is 16, not 0..15".into()),
    ] {
        folder.put("north.region", &damaged);
        for question in ["check north.region", "has north.region 20 1 1 1", "list north.region"] {
            refuses(
                &folder,
                &format!("region {question}"),
                &format!("refused 15 BadList: north.region is damaged or not a region list, write it again: {what}"),
            );
        }
    }
}

#[test]
fn files_that_cannot_be_read() {
    let folder = Folder::of("unread");
    for question in ["check FILE", "has FILE 20 1 1 1", "list FILE"].map(|question| format!("region {question}")) {
        refuses(
            &folder,
            &question.replace("FILE", "south.region"),
            "south.region could not be read: No such file or directory (os error 2)",
        );
        refuses(&folder, &question.replace("FILE", "."), ". could not be read: Is a directory (os error 21)");
    }
    let input = fs::File::open(&folder.0).unwrap();
    let (status, printed, said) = ended(folder.program("region write 9 north.region").stdin(input).output().unwrap());
    assert_eq!((status, printed.as_str()), (Some(1), ""));
    assert!(said.starts_with("heddleplume: standard input could not be read: "), "{said}");
    assert!(folder.names().is_empty());
}

/// Where there is no room for the new file, the old one stays and the new one goes. A limit on a file's size stands for a full disk.
#[test]
fn a_full_disk_leaves_the_old_file() {
    let folder = with_north("full");
    let rows: String = (0..1000).map(|n| format!("3 {n} 0 0\n")).collect();
    folder.put("rows.txt", rows.as_bytes());
    let limited = "trap '' XFSZ; ulimit -f 8; exec \"$0\" region write 9 north.region <rows.txt";
    let mut shell = Command::new("sh");
    let (status, printed, said) =
        ended(shell.args(["-c", limited, env!("CARGO_BIN_EXE_heddleplume")]).current_dir(&folder.0).output().unwrap());
    assert_eq!((status, printed.as_str()), (Some(1), ""));
    assert!(said.starts_with("heddleplume: north.region could not be written and stays as it was: File too large"), "{said}");
    assert_eq!((folder.names(), folder.bytes("north.region")), (vec!["north.region".into(), "rows.txt".into()], list()));
}

#[test]
fn what_is_no_plain_file_is_not_replaced() {
    let folder = Folder::of("special");
    fs::create_dir(folder.0.join("folder")).unwrap();
    for (name, why) in [("folder", "it is no plain file"), ("/dev/null", "it is no plain file"), ("none/north.region", "No such file")] {
        let (status, _, said) = folder.fed(&format!("region write 9 {name}"), LINES.as_bytes());
        assert_eq!(status, Some(1));
        assert!(said.starts_with(&format!("heddleplume: {name} could not be written and stays as it was: {why}")), "{said}");
    }
    assert_eq!(folder.names(), ["folder"]);
}

/// The new file stands where the old one stood, for those who could read it; a link to it leads there still.
#[test]
fn a_new_file_takes_the_place_of_the_old() {
    let folder = with_north("replaced");
    fs::set_permissions(folder.0.join("north.region"), Permissions::from_mode(0o640)).unwrap();
    symlink("north.region", folder.0.join("current.region")).unwrap();
    assert_eq!(folder.fed("region write 7 current.region", b"0 0 0 0\n").0, Some(0));
    assert_eq!(folder.asked("region check north.region").1, "level 7 places 1\n");
    assert_eq!(fs::metadata(folder.0.join("north.region")).unwrap().permissions().mode() & 0o777, 0o640);
    assert!(fs::symlink_metadata(folder.0.join("current.region")).unwrap().is_symlink());
    assert_eq!(folder.names(), ["current.region", "north.region"]);
}

/// A million rows in any order, every one of them twice, and back.
#[test]
fn a_million_rows() {
    let folder = Folder::of("million-rows");
    let place = |n: u64| format!("{} {} 0 {}\n", n % 20, n / 20, n % 7);
    let rows: String = (0..1_000_000).map(|n| place(n * 7919 % 500_000)).collect();
    folder.put("rows.txt", rows.as_bytes());
    let write = |from: &str, to: &str| {
        let input = fs::File::open(folder.0.join(from)).unwrap();
        ended(folder.program(&format!("region write 9 {to}")).stdin(input).output().unwrap())
    };
    let said = "rows: 1000000, repeats: 500000, places: 500000\n";
    assert_eq!(write("rows.txt", "north.region"), (Some(0), String::new(), said.into()));
    let listed = folder.asked("region list north.region").1;
    assert_eq!((listed.lines().count(), listed.lines().next()), (500_000, Some("0 0 0 0")));
    folder.put("listed.txt", listed.as_bytes());
    assert_eq!(write("listed.txt", "again.region").0, Some(0));
    assert!(folder.bytes("again.region") == folder.bytes("north.region"));
    for n in (0..500_000).step_by(99_991) {
        assert_eq!(folder.asked(&format!("region has north.region {}", place(n))).1, "yes\n");
    }
}
