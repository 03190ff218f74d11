//! The desk's case: a coach drives along a border, and its position jitters across the line. By the place alone its feed flickers. It does
//! not if a feed is switched only where the new place has some margin. One report in the middle has no fix: it switches nothing.
use std::process::ExitCode;

use heddleplume::{CellLevel, FaceIJK, Frame, Located, Refusal, locate};

const LEVEL: CellLevel = CellLevel(9);

/// The hexagon that has the north feed; all others have the default feed.
const NORTH: FaceIJK = FaceIJK::new(3, 9011, 0, 5025);

/// A twentieth of a hexagon, at this level some 17 metres: more than the coach's positions jitter.
const ENOUGH: f64 = 0.05;

/// Where the coach says it is, in kilometres from the centre of the Earth. Once it reports zeros, which divided by their length are NaN.
const REPORTED: [[f64; 3]; 12] = [
    [3966.079, -8.382, 4985.959],
    [3966.123, -8.382, 4985.924],
    [3966.162, -8.391, 4985.893],
    [3966.169, -8.405, 4985.887],
    [3966.155, -8.419, 4985.898],
    [3966.159, -8.441, 4985.895],
    [3966.140, -8.453, 4985.911],
    [0.0, 0.0, 0.0],
    [3966.136, -8.492, 4985.913],
    [3966.121, -8.506, 4985.925],
    [3966.124, -8.528, 4985.923],
    [3966.146, -8.559, 4985.906],
];

#[derive(Clone, Copy, PartialEq)]
enum Feed {
    North,
    Default,
}

impl Feed {
    fn of(place: FaceIJK) -> Feed {
        if place == NORTH { Feed::North } else { Feed::Default }
    }

    fn name(self) -> &'static str {
        match self {
            Feed::North => "north",
            Feed::Default => "default",
        }
    }
}

/// The coach's feed by its place alone, and the one that is held near the line.
#[derive(Clone, Copy)]
struct Feeds {
    alone: Feed,
    held: Feed,
}

/// How often each of the two was switched.
#[derive(Debug, Default, PartialEq)]
struct Switches {
    alone: u32,
    held: u32,
}

/// The coach leaves the north for good once.
const EXPECTED: Switches = Switches { alone: 7, held: 1 };

fn divided_by_length(reported: [f64; 3]) -> [f64; 3] {
    let length = reported.iter().map(|part| part * part).sum::<f64>().sqrt();
    reported.map(|part| part / length)
}

/// The place of a report, and how far it is from the border of its hexagon.
fn placed(frame: &Frame, reported: [f64; 3]) -> Result<(FaceIJK, f64), Refusal> {
    let Located { place, left } = locate(frame, LEVEL, divided_by_length(reported))?;
    Ok((place, left.margin()?))
}

impl Feeds {
    /// The feeds after a report. Whatever is refused switches none.
    fn after(self, report: Result<(FaceIJK, f64), Refusal>) -> Feeds {
        let Ok((place, margin)) = report else { return self };
        let alone = Feed::of(place);
        Feeds { alone, held: if margin < ENOUGH { self.held } else { alone } }
    }
}

/// A line of the table.
fn tell([x, y, z]: [f64; 3], report: Result<(FaceIJK, f64), Refusal>, feeds: Feeds) {
    let (place, margin) = match report {
        Ok((FaceIJK { face, i, j, k }, margin)) => (format!("{face} {i} {j} {k}"), format!("{margin:.3}")),
        Err(refusal) => (format!("refused {} {refusal:?}", refusal.number()), String::new()),
    };
    println!("{x:8.3} {y:6.3} {z:8.3}  {place:<19}  {margin:<6}  {:<14}  {}", feeds.alone.name(), feeds.held.name());
}

fn drive(frame: &Frame) -> Switches {
    println!("{:<24}  {:<19}  {:<6}  {:<14}  feed held", "position", "place", "margin", "by place alone");
    // It sets out with the north feed.
    let (mut feeds, mut switches) = (Feeds { alone: Feed::North, held: Feed::North }, Switches::default());
    for reported in REPORTED {
        let report = placed(frame, reported);
        let next = feeds.after(report);
        switches.alone += u32::from(next.alone != feeds.alone);
        switches.held += u32::from(next.held != feeds.held);
        feeds = next;
        tell(reported, report, feeds);
    }
    switches
}

fn main() -> ExitCode {
    let switches = drive(&Frame::default());
    println!("switches by place alone: {}, with the feed held: {}", switches.alone, switches.held);
    if switches == EXPECTED {
        return ExitCode::SUCCESS;
    }
    println!("these are not the switches that the coach must have: {EXPECTED:?}");
    ExitCode::FAILURE
}
