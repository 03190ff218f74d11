//! The server's question: is this coach in the north region? Vectors come in, a batch places them, the region list is asked, and each coach
//! gets a feed. One of them has no fix: it keeps the feed that it has.
use std::process::ExitCode;

use heddleplume::{CellLevel, FaceIJK, Frame, Refusal, Region, locate_all, read_row, region};

/// The level of the region list, and so of every place that is looked up in it.
const LEVEL: CellLevel = CellLevel(3);

/// The stops of the north line, in kilometres from the centre of the Earth. A coach in the cell of one of them is in the north region.
const STOPS: [[f64; 3]; 3] = [[3966.01, -8.31, 4985.98], [3796.51, -148.36, 5114.18], [3557.19, -198.47, 5281.66]];

/// Where each coach says it is. The third reports zeros, which divided by their length are NaN.
const REPORTED: [[f64; 3]; 4] = [[4188.24, 172.04, 4797.78], [3558.04, -193.72, 5281.27], [0.0, 0.0, 0.0], [3966.77, -3.46, 4985.38]];

#[derive(Clone, Copy, Debug, PartialEq)]
enum Feed {
    North,
    Default,
    /// The feed that the coach has.
    Kept,
}

impl Feed {
    fn name(self) -> &'static str {
        match self {
            Feed::North => "north feed",
            Feed::Default => "default feed",
            Feed::Kept => "keeps its feed",
        }
    }
}

/// What the four coaches must get.
const EXPECTED: [Feed; 4] = [Feed::Default, Feed::North, Feed::Kept, Feed::North];

fn divided_by_length(reported: [f64; 3]) -> [f64; 3] {
    let length = reported.iter().map(|part| part * part).sum::<f64>().sqrt();
    reported.map(|part| part / length)
}

/// The rows of a batch.
fn placed(frame: &Frame, reported: &[[f64; 3]]) -> Result<Vec<[i32; 4]>, Refusal> {
    let vectors: Vec<[f64; 3]> = reported.iter().copied().map(divided_by_length).collect();
    let mut rows = vec![[0; 4]; vectors.len()];
    locate_all(frame, LEVEL, &vectors, &mut rows, 0)?;
    Ok(rows)
}

/// The file of the north region, which a server would read from its disk.
fn north_list(frame: &Frame) -> Result<Vec<u8>, Refusal> {
    let mut rows = placed(frame, &STOPS)?;
    rows.sort_unstable();
    rows.dedup();
    region::list_of(LEVEL, &rows)
}

/// The feed of a coach whose batch row says this, and why. Whatever is refused switches no feed.
fn feed_of(north: &Region, answer: Result<FaceIJK, Refusal>) -> (Feed, String) {
    match answer.and_then(|place| Ok((place, north.has(place)?))) {
        Ok((FaceIJK { face, i, j, k }, in_north)) => {
            (if in_north { Feed::North } else { Feed::Default }, format!("face {face}, hexagon {i} {j} {k}"))
        }
        Err(refusal) => (Feed::Kept, refusal.to_string()),
    }
}

fn feeds(frame: &Frame) -> Result<Vec<Feed>, Refusal> {
    // Checked once, here; every question after this is a quick one.
    let north = Region::open(north_list(frame)?)?;
    println!("north region: level {}, places: {}", north.level().0, north.count());
    let rows = placed(frame, &REPORTED)?;
    let told = |(n, row): (usize, [i32; 4])| {
        let (feed, why) = feed_of(&north, read_row(row).expect("the batch has written every row"));
        println!("coach {}  {:<16}{why}", n + 1, feed.name());
        feed
    };
    Ok(rows.into_iter().enumerate().map(told).collect())
}

fn main() -> ExitCode {
    match feeds(&Frame::default()) {
        Ok(feeds) if feeds == EXPECTED => return ExitCode::SUCCESS,
        Ok(_) => println!("these are not the feeds that the coaches must get: {EXPECTED:?}"),
        Err(refusal) => println!("there are no feeds: {refusal}"),
    }
    ExitCode::FAILURE
}
