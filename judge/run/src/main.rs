//! Asks the Rust of docs/src and the proved library the same questions and compares every answer.
mod axes;
mod bench;
mod borders;
mod chance;
mod globe;
mod grids;
mod lists;
mod longest;
mod margin;
mod names;
mod nearest;
mod ours;
mod places;
mod plain;
mod plane;
mod record;
mod regions;
mod root;
mod round;
mod short;
mod sphere;
mod vectors;

use std::path::Path;

/// The refusals' numbers end with 15.
const REFUSALS: usize = 15;

/// How many questions of one kind were asked, how many got each refusal, and how many answers differed.
pub struct Tally {
    name: &'static str,
    asked: u64,
    refused: [u64; REFUSALS + 1],
    differed: u64,
}

impl Tally {
    pub fn same<const N: usize>(&mut self, ours: ours::Said<N>, theirs: ours::Said<N>, what: impl Fn() -> String) {
        self.asked += 1;
        self.refused[theirs.number as usize] += 1;
        self.also(ours == theirs, || format!("{}: ours {ours:?}, theirs {theirs:?}", what()));
    }

    /// A question with one right answer, such as a slice that is too short.
    pub fn holds(&mut self, right: bool, what: impl Fn() -> String) {
        self.asked += 1;
        self.also(right, what);
    }

    /// One more thing to be right about the answer to a question.
    pub fn also(&mut self, right: bool, what: impl Fn() -> String) {
        self.differed += u64::from(!right);
        if !right && self.differed <= 5 {
            println!("  wrong: {}", what());
        }
    }

    fn print(&self) {
        let (Self { name, asked, differed, .. }, refused) = (self, self.refused[1..].iter().sum::<u64>());
        let each: Vec<String> = (1..=REFUSALS).filter(|&n| self.refused[n] != 0).map(|n| format!("{n}: {}", self.refused[n])).collect();
        println!("{name}: {asked} asked, {refused} refused by both ({}), {differed} differ", each.join(", "));
    }
}

/// A question's name and who asks it.
type Question = (&'static str, fn(&mut Tally));

const QUESTIONS: [Question; 39] = [
    ("raise", grids::run_raise),
    ("grid", grids::run_grid),
    ("reduce", grids::run_reduce),
    ("map", grids::run_map),
    ("round", round::run),
    ("margin", margin::run),
    ("nearest centre", nearest::run),
    ("x1 and x2", axes::run),
    ("centre", plane::run_centre),
    ("meet", plane::run_meet),
    ("alike", plane::run_alike),
    ("direction", places::run_direction),
    ("turn", places::run_turn),
    ("step", places::run_step),
    ("cross", places::run_cross),
    ("settle", places::run_settle),
    ("same corner", names::run_same),
    ("first name", names::run_first),
    ("names on the sphere", names::run_sphere),
    ("names of corners", names::run_corners),
    ("short slices", short::run),
    ("frame", vectors::run_frame),
    ("nearest", vectors::run_nearest),
    ("plane point", vectors::run_plane_point),
    ("place", vectors::run_place),
    ("batch", vectors::run_batch),
    ("corners", borders::run_corners),
    ("hexagon", borders::run_hexagon),
    ("pentagon", borders::run_pentagon),
    ("root", root::run),
    ("sphere", sphere::run),
    ("hexagon sphere", globe::run_hexagon),
    ("pentagon sphere", globe::run_pentagon),
    ("region write", regions::run_write),
    ("region check", regions::run_check),
    ("region record", regions::run_record),
    ("region has", regions::run_has),
    ("region span", regions::run_span),
    ("region limit", longest::run),
];

/// Where the sample of `ask_main` lies, from the top of the repository.
const SAMPLE: &str = "crates/ask_main";

/// Asks all questions, or those named; `bench` times both sides instead, of all or of those named after it, and `record` writes a
/// sample, into a folder or its own.
fn main() {
    let names: Vec<String> = std::env::args().skip(1).collect();
    if names.first().is_some_and(|n| n == "bench") {
        return bench::run(&names[1..]);
    }
    if names.first().is_some_and(|n| n == "record") {
        return record::run(Path::new(names.get(1).map_or(SAMPLE, String::as_str)));
    }
    let mut bad = false;
    let wanted = |name: &str| names.is_empty() || names.iter().any(|n| n == name);
    for (name, run) in QUESTIONS.into_iter().filter(|q| wanted(q.0)) {
        let mut tally = Tally { name, asked: 0, refused: [0; REFUSALS + 1], differed: 0 };
        run(&mut tally);
        tally.print();
        bad |= tally.differed != 0;
    }
    std::process::exit(i32::from(bad));
}
