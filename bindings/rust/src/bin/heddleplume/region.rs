//! Region lists: written from lines of places, checked, listed, and asked whether a place is in them.
use std::fs;
use std::io::{self, BufReader, IsTerminal, Write};
use std::path::Path;

use heddleplume::region::list_of;
use heddleplume::{Refusal, Region};

use crate::arguments::Words;
use crate::failure::Failure;
use crate::places::Rows;
use crate::rows::write_row;
use crate::{damage, help, print, tell, whole_file};

/// How many bytes are read or written at once.
const ROOM: usize = 1 << 16;

/// What is asked of a region list stands in the first word.
pub fn from_words(words: &[String]) -> Result<(), Failure> {
    let Some((what, rest)) = words.split_first() else {
        return Err(Failure::Usage("write, check, has or list is missing".into()).about("region"));
    };
    let name = format!("region {what}");
    let answer: fn(Words) -> Result<(), Failure> = match what.as_str() {
        "write" => write,
        "check" => check,
        "has" => has,
        "list" => list,
        _ => return Err(help::unknown(&name).about("region")),
    };
    answer(Words::new(rest)).map_err(|failure| failure.about(&name))
}

/// Nothing is written before the whole list is there.
fn write(mut words: Words) -> Result<(), Failure> {
    let level = words.cell_level()?;
    let file = if words.is_empty() { None } else { Some(words.file()?) };
    words.end()?;
    if file.is_none() && io::stdout().is_terminal() {
        return Err(Failure::Usage("a region list is no text to look at: name a FILE for it".into()));
    }
    if io::stderr().is_terminal() && io::stdin().is_terminal() {
        tell("region write reads lines FACE I J K from standard input");
    }
    let rows = Rows::read(BufReader::with_capacity(ROOM, io::stdin().lock()))?;
    let read = rows.len();
    let places = rows.sorted()?;
    let list = list_of(level, &places).map_err(too_many)?;
    match file {
        Some(name) => whole_file::write(Path::new(name), &list).map_err(|error| Failure::Kept(name.into(), error))?,
        None => put(&list)?,
    }
    tell(&format!("rows: {read}, repeats: {}, places: {}", read - places.len(), places.len()));
    Ok(())
}

/// Of places in order, without repeats, a list can only have too many.
fn too_many(refusal: Refusal) -> Failure {
    match refusal {
        Refusal::BadList => Failure::Advised(refusal, "a region list has at most 2147483647 places: write several".into()),
        _ => refusal.into(),
    }
}

fn put(bytes: &[u8]) -> Result<(), Failure> {
    let mut output = io::stdout().lock();
    output.write_all(bytes).and_then(|()| output.flush()).map_err(Failure::Written)
}

fn read(name: &str) -> Result<Vec<u8>, Failure> {
    fs::read(name).map_err(|error| Failure::Unread(name.into(), error))
}

/// The list of a file, fully checked.
fn opened<'a>(name: &str, list: &'a [u8]) -> Result<Region<'a>, Failure> {
    let damaged = || format!("{name} is damaged or not a region list, write it again: {}", damage::of(list));
    Region::open(list).map_err(|refusal| Failure::Advised(refusal, damaged()))
}

fn check(mut words: Words) -> Result<(), Failure> {
    let name = words.file()?;
    words.end()?;
    let list = read(name)?;
    let region = opened(name, &list)?;
    print(&format!("level {} places {}", region.level().0, region.count()))
}

fn has(mut words: Words) -> Result<(), Failure> {
    let name = words.file()?;
    let (place, ()) = words.place(|_| Ok(()))?;
    words.end()?;
    let list = read(name)?;
    print(if opened(name, &list)?.has(place)? { "yes" } else { "no" })
}

fn list(mut words: Words) -> Result<(), Failure> {
    let name = words.file()?;
    words.end()?;
    let list = read(name)?;
    let mut text = Vec::with_capacity(ROOM);
    for place in opened(name, &list)?.records() {
        write_row(&mut text, place, b' ');
        if text.len() > ROOM {
            put(&text)?;
            text.clear();
        }
    }
    put(&text)
}
