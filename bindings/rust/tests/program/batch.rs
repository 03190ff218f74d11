//! Whole files: refused and unreadable lines among good ones, ends of lines, outputs that fail, a million lines.
use std::fs::{self, File, OpenOptions};
use std::io::Write;
use std::path::{Path, PathBuf};

use super::{asked, ended, fed, program};

const PLACE: &str = "3,9433,0,4829\n";

fn answers(input: &[u8], output: &str, report: &str) {
    let (status, printed, said) = fed("batch 9", input);
    assert_eq!((status, printed.as_str(), said.as_str()), (Some(0), output, report), "{}", String::from_utf8_lossy(input));
}

#[test]
fn refused_lines_shift_no_other() {
    let input = "0.6,0,0.8\nnan,nan,nan\n\nno fix\n1,0,0\n0,0,0\n0.6,0\n0.6,0,0.8,1\n0.6,0,0.8\n";
    let refused = "refused,6,BadNumber,\nrefused,14,BadLine,\nrefused,14,BadLine,\n";
    let more = "refused,7,OffSphere,\nrefused,14,BadLine,\nrefused,14,BadLine,\n";
    let report = "rows: 9, refused: 6
  1: refused 6 BadNumber: the receiver has no fix, keep its feed
  1: refused 7 OffSphere: divide the vector by its length first
  4: refused 14 BadLine: write the line as the help shows it
";
    answers(input.as_bytes(), &format!("{PLACE}{refused}9,0,3944,11640\n{more}{PLACE}"), report);
}

#[test]
fn ends_of_lines() {
    let two = format!("{PLACE}{PLACE}");
    for input in ["0.6,0,0.8\n0.6,0,0.8\n", "0.6,0,0.8\n0.6,0,0.8", "0.6,0,0.8\r\n0.6,0,0.8\r\n", "\u{feff}0.6,0,0.8\n 0.6, 0, 0.8 \n"] {
        answers(input.as_bytes(), &two, "rows: 2, refused: 0\n");
    }
    answers(b"", "", "rows: 0, refused: 0\n");
    answers(b"\n", "refused,14,BadLine,\n", "rows: 1, refused: 1\n  1: refused 14 BadLine: write the line as the help shows it\n");
}

#[test]
fn a_header_is_answered_by_a_header() {
    answers(b"x,y,z\r\n0.6,0,0.8\r\n", &format!("face,i,j,k\n{PLACE}"), "rows: 1, refused: 0\n");
    answers(b"x,y,z", "face,i,j,k\n", "rows: 0, refused: 0\n");
    let (_, printed, _) = fed("batch 9", b"nan,nan,nan\nx,y,z\n");
    assert_eq!(printed, "refused,6,BadNumber,\nrefused,14,BadLine,\n");
}

#[test]
fn long_lines_and_other_bytes() {
    let long = [b"0.6,0,0.8".to_vec(), vec![b'0'; 100_000]].concat();
    let input = [&b"0.6,0,0.8\n"[..], &long, b"\n\xff,\x00,\xfe\n0.6,0,0.8"].concat();
    let (status, printed, _) = fed("batch 9", &input);
    assert_eq!((status, printed), (Some(0), format!("{PLACE}refused,14,BadLine,\nrefused,14,BadLine,\n{PLACE}")));
}

#[test]
fn a_bad_level_is_refused_before_anything_is_read() {
    let (status, printed, said) = fed("batch 16", b"0.6,0,0.8\n");
    assert_eq!((status, printed.as_str()), (Some(1), ""));
    assert!(said.starts_with("heddleplume: refused 4 BadLevel: "), "{said}");
}

/// A file of its own for a test, gone when the test ends.
struct Temporary(PathBuf);

impl Temporary {
    fn of(name: &str, text: &[u8]) -> Temporary {
        let path = Path::new(env!("CARGO_TARGET_TMPDIR")).join(format!("{name}-{}", std::process::id()));
        fs::write(&path, text).expect("there is room");
        Temporary(path)
    }
}

impl Drop for Temporary {
    fn drop(&mut self) {
        let _ = fs::remove_file(&self.0);
    }
}

#[test]
fn inputs_and_outputs_that_fail() {
    let rows = Temporary::of("rows", "0.6,0,0.8\n".repeat(100_000).as_bytes());
    let input = || File::open(&rows.0).unwrap();
    let full = OpenOptions::new().write(true).open("/dev/full").expect("Linux has it");
    let (status, _, said) = ended(program("batch 9").stdin(input()).stdout(full).output().unwrap());
    assert_eq!(status, Some(1));
    assert!(said.starts_with("heddleplume: the output could not be written and is not whole: ") && said.lines().count() == 1, "{said}");

    let mut child = program("batch 9").stdin(input()).spawn().unwrap();
    drop(child.stdout.take());
    let (status, _, said) = ended(child.wait_with_output().unwrap());
    assert_eq!((status, said.as_str()), (Some(1), "heddleplume: the output is not whole: the program that reads it has stopped\n"));

    let folder = File::open(env!("CARGO_TARGET_TMPDIR")).unwrap();
    let (status, printed, said) = ended(program("batch 9").stdin(folder).output().unwrap());
    assert_eq!((status, printed.as_str()), (Some(1), ""));
    assert!(said.starts_with("heddleplume: the input could not be read, so the answers are not whole: "), "{said}");
}

/// Line n of the million: a vector that runs round the Earth from pole to pole; every thousandth has no fix, and the one after is no line.
fn line(n: u32) -> String {
    let (z, angle) = (f64::from(n) / 500_000.0 - 1.0, f64::from(n) * 2.399963229728653);
    let across = (1.0 - z * z).sqrt();
    match n % 1000 {
        500 => "nan,nan,nan".into(),
        501 => "no line".into(),
        _ => format!("{},{},{z}", across * angle.cos(), across * angle.sin()),
    }
}

#[test]
fn a_million_lines() {
    let mut text = Vec::new();
    (0..1_000_000).for_each(|n| writeln!(text, "{}", line(n)).unwrap());
    let input = Temporary::of("million", &text);
    let (status, printed, said) = ended(program("batch 9").stdin(File::open(&input.0).unwrap()).output().unwrap());
    assert_eq!(status, Some(0));
    assert!(said.starts_with("rows: 1000000, refused: 2000\n"), "{said}");
    let answers: Vec<&str> = printed.lines().collect();
    assert_eq!(answers.len(), 1_000_000);
    // Both sides of each border between blocks, and rows in between.
    for n in (0..1_000_000).filter(|n| n % 99_991 == 7 || matches!(n % (40 * 4096), 0 | 4095)) {
        // The place alone: a row has no leftovers.
        let alone = asked(&format!("place 9 {}", line(n).replace(',', " "))).1;
        assert_eq!(alone.split(' ').take(4).collect::<Vec<_>>().join(","), answers[n as usize], "line {n}");
    }
    for n in (0..1_000_000).step_by(1000) {
        assert_eq!([answers[n + 500], answers[n + 501]], ["refused,6,BadNumber,", "refused,14,BadLine,"], "line {n}");
    }
}
