//! The lines of an input: cut at each newline, into one buffer that is used again; and the vectors that they write.
use std::io::{self, BufRead, Read};

/// The bytes of the longest line that is read. Three doubles written out in full, as 1e-308 is, have about a thousand.
const LONGEST: usize = 4096;

/// What a spreadsheet may write before the first line.
const BYTE_ORDER_MARK: &[u8] = b"\xef\xbb\xbf";

pub struct Lines<R> {
    input: R,
    line: Vec<u8>,
    first: bool,
}

impl<R: BufRead> Lines<R> {
    pub fn new(input: R) -> Lines<R> {
        Lines { input, line: Vec::with_capacity(LONGEST), first: true }
    }

    /// The next line without its end, which may be LF or CR LF; none after the last. What follows the last newline is a line too, unless
    /// nothing does. A line that is too long is given as an empty one: cut, it could be read as other numbers.
    pub fn next(&mut self) -> io::Result<Option<&[u8]>> {
        self.line.clear();
        let limit = LONGEST as u64;
        if self.input.by_ref().take(limit).read_until(b'\n', &mut self.line)? == 0 {
            return Ok(None);
        }
        if self.line.len() == LONGEST && !self.line.ends_with(b"\n") {
            self.input.skip_until(b'\n')?;
            self.line.clear();
        }
        let line = self.line.strip_suffix(b"\n").unwrap_or(&self.line);
        let line = line.strip_suffix(b"\r").unwrap_or(line);
        let first = std::mem::take(&mut self.first);
        Ok(Some(line.strip_prefix(BYTE_ORDER_MARK).filter(|_| first).unwrap_or(line)))
    }
}

/// A field of a line as a double.
pub fn double(field: &[u8]) -> Option<f64> {
    std::str::from_utf8(field.trim_ascii()).ok()?.parse().ok()
}

fn fields(line: &[u8]) -> impl Iterator<Item = &[u8]> {
    line.split(|byte| *byte == b',')
}

/// The vector that a line x,y,z writes; none if it is anything else.
pub fn vector(line: &[u8]) -> Option<[f64; 3]> {
    let mut fields = fields(line);
    let vector = [double(fields.next()?)?, double(fields.next()?)?, double(fields.next()?)?];
    fields.next().is_none().then_some(vector)
}

/// Whether a first line is a header: it names something, and holds no number. `nan` is a number, of a receiver with no fix.
pub fn is_header(line: &[u8]) -> bool {
    fields(line).any(|field| !field.trim_ascii().is_empty()) && fields(line).all(|field| double(field).is_none())
}

#[cfg(test)]
mod tests {
    use super::*;

    fn cut(text: &[u8]) -> Vec<Vec<u8>> {
        let mut lines = Lines::new(text);
        std::iter::from_fn(|| lines.next().unwrap().map(<[u8]>::to_vec)).collect()
    }

    #[test]
    fn where_lines_end() {
        assert_eq!(cut(b""), Vec::<Vec<u8>>::new());
        assert_eq!(cut(b"\n"), [b""]);
        assert_eq!(cut(b"a\r\n\nb\rc\n\xef\xbb\xbfd"), [&b"a"[..], b"", b"b\rc", b"\xef\xbb\xbfd"]);
        assert_eq!(cut(b"\xef\xbb\xbfa\nb\n"), [b"a", b"b"]);
    }

    #[test]
    fn a_line_too_long_is_empty_and_shifts_none() {
        for (length, kept) in [(LONGEST - 2, true), (LONGEST - 1, true), (LONGEST, false), (3 * LONGEST, false)] {
            let long = vec![b'1'; length];
            let text = [&long[..], b"\nb"].concat();
            assert_eq!(cut(&text), [if kept { &long[..] } else { b"" }, b"b"], "{length}");
        }
    }

    #[test]
    fn vectors() {
        assert_eq!(vector(b"0.6, 0 ,\t0.8"), Some([0.6, 0.0, 0.8]));
        assert_eq!(vector(b"1e0,-0.0,+2."), Some([1.0, 0.0, 2.0]));
        assert!(vector(b"nan,NaN,inf").is_some_and(|[x, y, z]| x.is_nan() && y.is_nan() && z.is_infinite()));
        for line in [&b""[..], b"1,0", b"1,0,0,", b"1,0,0,0", b"1;0;0", b"1,,0", b"\"1\",0,0", b"1,0,\xff", b"1,0,0x1", b"1 0,0,0"] {
            assert_eq!(vector(line), None, "{line:?}");
        }
    }

    #[test]
    fn headers() {
        for line in [&b"x,y,z"[..], b"x", b"\xff,\xfe"] {
            assert!(is_header(line), "{line:?}");
        }
        for line in [&b""[..], b",,", b" ", b"nan,nan,nan", b"x,0,z", b"1,0,0"] {
            assert!(!is_header(line), "{line:?}");
        }
    }
}
