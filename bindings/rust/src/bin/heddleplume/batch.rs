//! A whole file of vectors: each line x,y,z is answered by a line face,i,j,k, or by its refusal.
use std::io::{self, BufRead, BufReader, IsTerminal, Write};

use heddleplume::{CellLevel, Frame, locate_all};

use crate::arguments::Words;
use crate::failure::Failure;
use crate::lines::{Lines, is_header, vector};
use crate::rows::{BLOCK, Block, HEADER, Tally};
use crate::tell;

/// How many bytes are read at once.
const ROOM: usize = 1 << 16;

/// After how many blocks progress is shown.
const SHOWN_EVERY: u64 = 64;

/// Answers standard input on standard output, and says on standard error how it went.
pub fn from_words(mut words: Words) -> Result<(), Failure> {
    let level = words.cell_level()?;
    words.end()?;
    let watched = io::stderr().is_terminal();
    if watched && io::stdin().is_terminal() {
        tell("batch reads lines x,y,z from standard input");
    }
    let input = BufReader::with_capacity(ROOM, io::stdin().lock());
    // The cursor goes back, so that what is said next is written over it.
    let progress = |rows: u64| {
        if watched {
            let _ = write!(io::stderr(), "rows: {rows}\r");
        }
    };
    let tally = run(level, input, &mut io::stdout().lock(), progress)?;
    tell(&tally.report());
    Ok(())
}

/// The batch itself, block by block.
fn run(level: CellLevel, input: impl BufRead, output: &mut impl Write, progress: impl Fn(u64)) -> Result<Tally, Failure> {
    let frame = Frame::default();
    // A bad level is refused before the first line is read.
    locate_all(&frame, level, &[], &mut [], 0)?;
    let (mut lines, mut block, mut tally) = (Lines::new(input), Block::new(), Tally::default());
    let mut first = true;
    while let Some(line) = lines.next().map_err(Failure::Read)? {
        if std::mem::take(&mut first) && is_header(line) {
            output.write_all(HEADER).map_err(Failure::Written)?;
            continue;
        }
        block.push(vector(line));
        if block.is_full() {
            block.answer(&frame, level, output, &mut tally).map_err(Failure::Written)?;
            if tally.rows % (BLOCK as u64 * SHOWN_EVERY) == 0 {
                progress(tally.rows);
            }
        }
    }
    block.answer(&frame, level, output, &mut tally).and_then(|()| output.flush()).map_err(Failure::Written)?;
    Ok(tally)
}
