//! The rows of a region, a line each: FACE,I,J,K, as a batch writes them, or FACE I J K. A wrong one is told by its line.
use std::io::BufRead;

use heddleplume::{FaceIJK, Refusal, read_row};

use crate::failure::Failure;
use crate::lines::{Lines, double};

/// How much of a line is shown.
const SHOWN: usize = 60;

/// The rows in the order of their lines.
pub struct Rows {
    rows: Vec<[i32; 4]>,
    /// Whether a header stands before them.
    header: bool,
}

impl Rows {
    /// Reads them all. Refusals: 14, of the first line that is no row; the first line of all may be a header.
    pub fn read(input: impl BufRead) -> Result<Rows, Failure> {
        let (mut lines, mut read) = (Lines::new(input), Rows { rows: Vec::new(), header: false });
        while let Some(line) = lines.next().map_err(|error| Failure::Unread("standard input".into(), error))? {
            let first = !read.header && read.rows.is_empty();
            match row(line) {
                Some(row) => read.rows.push(row),
                None if first && is_header(line) => read.header = true,
                None => return Err(no_row(read.line_of(read.rows.len()), line)),
            }
        }
        Ok(read)
    }

    pub fn len(&self) -> usize {
        self.rows.len()
    }

    /// The line of row n, counted from 1.
    fn line_of(&self, n: usize) -> usize {
        n + 1 + usize::from(self.header)
    }

    /// The rows as a list wants them: in order, without repeats. Refusals: 15, of the first that is no place, told while its line is known.
    pub fn sorted(mut self) -> Result<Vec<[i32; 4]>, Failure> {
        if let Some((n, why)) = self.rows.iter().enumerate().find_map(|(n, row)| Some((n, no_place(*row)?))) {
            let [face, i, j, k] = self.rows[n];
            let said = format!("line {} is {face} {i} {j} {k}, which is no place: {why}", self.line_of(n));
            return Err(Failure::Advised(Refusal::BadList, said));
        }
        self.rows.sort_unstable();
        self.rows.dedup();
        Ok(self.rows)
    }
}

/// The row that a line writes, with commas or with blanks between its numbers; none if it is anything else.
fn row(line: &[u8]) -> Option<[i32; 4]> {
    let line = std::str::from_utf8(line).ok()?;
    if line.contains(',') { four(line.split(',').map(str::trim_ascii)) } else { four(line.split_ascii_whitespace()) }
}

fn four<'a>(mut words: impl Iterator<Item = &'a str>) -> Option<[i32; 4]> {
    let mut number = || words.next()?.parse().ok();
    let row = [number()?, number()?, number()?, number()?];
    words.next().is_none().then_some(row)
}

/// Whether a first line is a header: it names something without a digit, and without `nan`. A digit could be a row's that is written in
/// another way, as `3;9433;0;4829`, which must not be dropped as if it were a header.
fn is_header(line: &[u8]) -> bool {
    let mut words = line.split(|byte| *byte == b',' || byte.is_ascii_whitespace()).filter(|word| !word.is_empty()).peekable();
    words.peek().is_some() && words.all(|word| double(word).is_none() && !word.iter().any(u8::is_ascii_digit))
}

fn no_row(number: usize, line: &[u8]) -> Failure {
    let text = String::from_utf8_lossy(line);
    let shown: String = text.chars().take(SHOWN).flat_map(char::escape_debug).collect();
    let more = if text.chars().nth(SHOWN).is_some() { " .." } else { "" };
    let is = if line.is_empty() { "empty or much too long".into() } else { format!("`{shown}{more}`") };
    let said = format!("line {number} is {is}, not FACE,I,J,K or FACE I J K in whole numbers: write it so, or leave it out");
    Failure::Advised(Refusal::BadLine, said)
}

/// Why a row is no place; none if it is one.
fn no_place(row: [i32; 4]) -> Option<String> {
    if let Some(Err(refusal)) = read_row(row) {
        return Some(format!("a batch has refused it ({} {refusal:?}), so leave it out", refusal.number()));
    }
    // One below 0 becomes a large one, which no place has either.
    fault(FaceIJK::from(row.map(|number| number as u32))).map(String::from)
}

/// What is wrong with a place; none if nothing is. The library decides: any question about a place would say as much.
pub fn fault(place: FaceIJK) -> Option<&'static str> {
    match place.turn(false) {
        Ok(_) => None,
        Err(Refusal::BadFace) => Some("its face is not 0..19"),
        Err(_) => Some("none of its I J K is 0, or one is not 0..67108864"),
    }
}

#[cfg(test)]
mod tests {
    use super::*;

    #[test]
    fn rows() {
        for line in ["3,9433,0,4829", "3 9433 0 4829", " 3, 9433 ,0,\t4829 ", "\t3  9433\t0 4829 ", "+3,09433,0,4829"] {
            assert_eq!(row(line.as_bytes()), Some([3, 9433, 0, 4829]), "{line}");
        }
        assert_eq!(row(b"-6 0 0 0"), Some([-6, 0, 0, 0]));
        for line in
            [&b""[..], b"3", b"3,1,0", b"3,1,0,0,", b"3 1 0 0 0", b"3 1,0 0", b"3,1,,0", b"3;1;0;0", b"3,1,0,0.0", b"3,1,0,2147483648"]
        {
            assert_eq!(row(line), None, "{line:?}");
        }
        assert_eq!(row(b"refused,6,BadNumber,"), None);
        assert_eq!(row(b"3 1 0 0 0.25 0.5"), None);
        assert_eq!(row(b"3,1,0,\xff"), None);
    }

    #[test]
    fn headers() {
        for line in [&b"face,i,j,k"[..], b"face i j k", b"FACE", b"\xff"] {
            assert!(is_header(line), "{line:?}");
        }
        for line in [&b""[..], b" , ", b"3 1 0 x", b"x3", b"3;1;0;0", b"refused,6,BadNumber,", b"nan nan nan"] {
            assert!(!is_header(line), "{line:?}");
        }
    }

    #[test]
    fn lines_are_counted_from_the_header_on() {
        let said = |text: &str| match Rows::read(text.as_bytes()).and_then(Rows::sorted) {
            Ok(rows) => format!("{rows:?}"),
            Err(failure) => failure.to_string(),
        };
        assert_eq!(said("face,i,j,k\n9,0,1,2\n3 5 0 0\n9 0 1 2\n"), "[[3, 5, 0, 0], [9, 0, 1, 2]]");
        assert!(said("face,i,j,k\n9,0,1,2\nface,i,j,k\n").starts_with("refused 14 BadLine: line 3 is `face,i,j,k`, not "));
        assert!(said("face,i,j,k\nface,i,j,k\n").starts_with("refused 14 BadLine: line 2 is `face,i,j,k`, not "));
        assert!(said("9,0,1,2\n\n").starts_with("refused 14 BadLine: line 2 is empty or much too long, not "));
        assert!(said(&format!("9 0 1 2\n{}", "x".repeat(61))).contains(&format!(" line 2 is `{} ..`, not ", "x".repeat(60))));
        // A line that is no row comes before one that is no place.
        assert!(said("20,0,0,0\n1\n").starts_with("refused 14 BadLine: line 2 is `1`, not "));
        assert!(said("h\n0,0,0,0\n20,0,0,0\n").starts_with("refused 15 BadList: line 3 is 20 0 0 0, which is no place: its face "));
        assert!(said("3,1,1,1\n20,0,0,0\n").starts_with("refused 15 BadList: line 1 is 3 1 1 1, which is no place: none of its "));
        assert!(said("0 67108865 0 0").contains("or one is not 0..67108864") && said("0 0 -1 0").contains("or one is not 0..67108864"));
        assert!(said("-6 0 0 0").ends_with("a batch has refused it (6 BadNumber), so leave it out"));
    }
}
