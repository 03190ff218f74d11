//! A block of rows on its way through the batch: vectors in, lines of text out.
use std::io::{self, Write};

use heddleplume::{CellLevel, FaceIJK, Frame, Refusal, locate_all, read_row};

/// How many rows a block has.
pub const BLOCK: usize = 4096;

pub const HEADER: &[u8] = b"face,i,j,k\n";

/// How many rows there were, and how many were refused, by the refusal's number.
#[derive(Default)]
pub struct Tally {
    pub rows: u64,
    refused: [u64; 1 + Refusal::ALL.len()],
}

impl Tally {
    /// In words: the sum, then a line for each refusal that was met.
    pub fn report(&self) -> String {
        let met =
            Refusal::ALL.into_iter().map(|refusal| (refusal, self.refused[refusal.number() as usize])).filter(|(_, times)| *times > 0);
        let lines = met.map(|(refusal, times)| format!("\n  {times}: {refusal}"));
        format!("rows: {}, refused: {}{}", self.rows, self.refused.iter().sum::<u64>(), lines.collect::<String>())
    }
}

/// A block of vectors and the rows for their places.
pub struct Block {
    vectors: Vec<[f64; 3]>,
    /// Which of them stand for a line that could not be read.
    unread: Vec<bool>,
    rows: Vec<[i32; 4]>,
    text: Vec<u8>,
}

impl Block {
    pub fn new() -> Block {
        Block { vectors: Vec::with_capacity(BLOCK), unread: Vec::with_capacity(BLOCK), rows: vec![[0; 4]; BLOCK], text: Vec::new() }
    }

    pub fn is_full(&self) -> bool {
        self.vectors.len() == BLOCK
    }

    /// The next row: a vector, or none of a line that could not be read. Three NaN hold its place, so that it shifts no other.
    pub fn push(&mut self, vector: Option<[f64; 3]>) {
        self.vectors.push(vector.unwrap_or([f64::NAN; 3]));
        self.unread.push(vector.is_none());
    }

    /// Places the block's vectors, writes a line for each and empties the block.
    pub fn answer(&mut self, frame: &Frame, level: CellLevel, output: &mut impl Write, tally: &mut Tally) -> io::Result<()> {
        let count = self.vectors.len();
        locate_all(frame, level, &self.vectors, &mut self.rows, 0).expect("the level was tested, and a block has rows enough");
        self.text.clear();
        for (row, unread) in self.rows.iter().zip(&self.unread) {
            if *unread {
                refuse(&mut self.text, Refusal::BadLine, tally);
                continue;
            }
            match read_row(*row).expect("the batch has written every row") {
                Ok(place) => write_row(&mut self.text, place, b','),
                Err(refusal) => refuse(&mut self.text, refusal, tally),
            }
        }
        tally.rows += count as u64;
        self.vectors.clear();
        self.unread.clear();
        output.write_all(&self.text)
    }
}

fn refuse(text: &mut Vec<u8>, refusal: Refusal, tally: &mut Tally) {
    tally.refused[refusal.number() as usize] += 1;
    writeln!(text, "refused,{},{refusal:?},", refusal.number()).expect("there is always room in a vector");
}

/// A place as a line, with this byte between its numbers.
pub fn write_row(text: &mut Vec<u8>, place: FaceIJK, between: u8) {
    for number in <[u32; 4]>::from(place) {
        write_digits(text, number);
        text.push(between);
    }
    *text.last_mut().expect("a row has four numbers") = b'\n';
}

/// The decimal digits of a number. With `write!` a whole batch takes a third longer.
fn write_digits(text: &mut Vec<u8>, mut number: u32) {
    let (mut digits, mut first) = ([b'0'; 10], 10);
    while number > 0 || first == 10 {
        first -= 1;
        digits[first] = b'0' + (number % 10) as u8;
        number /= 10;
    }
    text.extend_from_slice(&digits[first..]);
}

#[cfg(test)]
mod tests {
    use super::*;

    #[test]
    fn digits() {
        for number in [0, 9, 10, 4095, 1_000_000_000, u32::MAX] {
            let mut text = Vec::new();
            write_digits(&mut text, number);
            assert_eq!(text, number.to_string().as_bytes());
        }
    }

    #[test]
    fn a_block_is_used_again() {
        let (frame, mut block, mut tally, mut output) = (Frame::default(), Block::new(), Tally::default(), Vec::new());
        for vectors in [[Some([1.0, 0.0, 0.0]), None, Some([f64::NAN; 3])], [None, None, Some([1.0, 0.0, 0.0])]] {
            vectors.into_iter().for_each(|vector| block.push(vector));
            block.answer(&frame, CellLevel(9), &mut output, &mut tally).unwrap();
        }
        block.answer(&frame, CellLevel(9), &mut output, &mut tally).unwrap();
        let (place, line) = ("9,0,3944,11640\n", "refused,14,BadLine,\n");
        assert_eq!(String::from_utf8(output).unwrap(), format!("{place}{line}refused,6,BadNumber,\n{line}{line}{place}"));
        assert!(tally.report().starts_with("rows: 6, refused: 4\n  1: refused 6 BadNumber: "));
    }
}
