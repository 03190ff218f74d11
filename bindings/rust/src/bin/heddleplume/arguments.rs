//! The words of a question, read one after the other. What cannot be read is a usage error that names the word and what it stands for.
use std::slice::Iter;

use heddleplume::{CellLevel, CoordIJK, FaceIJK, Grid, GridLevel, Vec2d};

use crate::failure::Failure;

pub struct Words<'a> {
    left: Iter<'a, String>,
}

impl<'a> Words<'a> {
    pub fn new(words: &'a [String]) -> Words<'a> {
        Words { left: words.iter() }
    }

    fn next(&mut self, name: &str) -> Result<&'a str, Failure> {
        self.left.next().map(String::as_str).ok_or_else(|| Failure::Usage(format!("{name} is missing")))
    }

    /// The nearest double of a decimal.
    pub fn double(&mut self, name: &str) -> Result<f64, Failure> {
        let word = self.next(name)?;
        word.parse().map_err(|_| Failure::Usage(format!("{name} is `{word}`, which is no decimal such as 0.5 or -1e-3")))
    }

    /// A whole number. Which ones are good, the library says.
    pub fn number(&mut self, name: &str) -> Result<u32, Failure> {
        let word = self.next(name)?;
        word.parse().map_err(|_| Failure::Usage(format!("{name} is `{word}`, which is no whole number 0..4294967295")))
    }

    /// One word of a few, and what it stands for.
    pub fn one_of<T: Copy>(&mut self, choices: [(&str, T); 2]) -> Result<T, Failure> {
        let [(first, _), (second, _)] = choices;
        let word = self.next(&format!("{first} or {second}"))?;
        let chosen = choices.into_iter().find(|(name, _)| *name == word).map(|(_, value)| value);
        chosen.ok_or_else(|| Failure::Usage(format!("`{word}` stands where {first} or {second} belongs")))
    }

    pub fn cell_level(&mut self) -> Result<CellLevel, Failure> {
        self.number("LEVEL").map(CellLevel)
    }

    pub fn grid_level(&mut self) -> Result<GridLevel, Failure> {
        self.number("LEVEL").map(GridLevel)
    }

    /// A grid level and which of its grids.
    pub fn grid(&mut self) -> Result<(GridLevel, Grid), Failure> {
        Ok((self.grid_level()?, self.one_of([("p", Grid::Plain), ("s", Grid::Substrate)])?))
    }

    pub fn coord(&mut self) -> Result<CoordIJK, Failure> {
        Ok(CoordIJK::new(self.number("I")?, self.number("J")?, self.number("K")?))
    }

    /// A face, what `between` reads, and the coordinates on the face.
    pub fn place<T>(&mut self, between: impl FnOnce(&mut Words<'a>) -> Result<T, Failure>) -> Result<(FaceIJK, T), Failure> {
        let face = self.number("FACE")?;
        let value = between(self)?;
        let CoordIJK { i, j, k } = self.coord()?;
        Ok((FaceIJK::new(face, i, j, k), value))
    }

    pub fn point(&mut self) -> Result<Vec2d, Failure> {
        Ok(Vec2d::new(self.double("X")?, self.double("Y")?))
    }

    pub fn vector(&mut self) -> Result<[f64; 3], Failure> {
        Ok([self.double("X")?, self.double("Y")?, self.double("Z")?])
    }

    pub fn file(&mut self) -> Result<&'a str, Failure> {
        self.next("FILE")
    }

    pub fn is_empty(&self) -> bool {
        self.left.len() == 0
    }

    /// Nothing may follow.
    pub fn end(&mut self) -> Result<(), Failure> {
        self.left.next().map_or(Ok(()), |word| Err(Failure::Usage(format!("`{word}` is one word too many"))))
    }
}

#[cfg(test)]
mod tests {
    use super::*;

    fn read<T>(text: &str, read: impl FnOnce(&mut Words) -> Result<T, Failure>) -> Result<T, String> {
        let words: Vec<String> = text.split_whitespace().map(str::to_string).collect();
        let mut words = Words::new(&words);
        let value = read(&mut words).map_err(|failure| failure.to_string())?;
        words.end().map_err(|failure| failure.to_string())?;
        Ok(value)
    }

    fn fails<T>(result: Result<T, String>, with: &str) {
        let said = result.err().expect("it is no good question");
        assert!(said.starts_with(with), "{said}");
    }

    #[test]
    fn doubles_are_the_nearest() {
        assert_eq!(
            read("0.1 -1e-3 -0", |words| words.vector()).map(|vector| vector.map(f64::to_bits)),
            Ok([0.1, -1e-3, -0.0].map(f64::to_bits))
        );
        assert!(read("nan", |words| words.double("X")).unwrap().is_nan());
        fails(read("0,5", |words| words.double("X")), "X is `0,5`, which is no decimal");
        fails(read("1 2", |words| words.vector()), "Z is missing");
        fails(read("1 2 3", |words| words.point()), "`3` is one word too many");
    }

    #[test]
    fn whole_numbers() {
        assert_eq!(read("4294967295", |words| words.number("I")), Ok(u32::MAX));
        for word in ["-1", "4294967296", "1.0", "x"] {
            fails(read(word, |words| words.number("I")), &format!("I is `{word}`, which is no whole number"));
        }
    }

    #[test]
    fn a_place_with_its_grid() {
        let read_one = |text| read(text, |words| words.place(Words::grid));
        assert_eq!(read_one("1 2 s 3 4 0"), Ok((FaceIJK::new(1, 3, 4, 0), (GridLevel(2), Grid::Substrate))));
        fails(read_one("1 2 q 3 4 0"), "`q` stands where p or s belongs");
        fails(read_one("1 2"), "p or s is missing");
    }
}
