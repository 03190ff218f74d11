//! What can be asked: the one list from which the help is printed and usage errors are explained.
use crate::failure::Failure;

pub struct Entry {
    name: &'static str,
    /// The words that follow the name.
    form: &'static str,
    /// Such words.
    example: &'static str,
    /// What is answered.
    answer: &'static str,
}

const fn entry(name: &'static str, form: &'static str, example: &'static str, answer: &'static str) -> Entry {
    Entry { name, form, example, answer }
}

static ENTRIES: [Entry; 25] = [
    entry("place", "LEVEL X Y Z", "9 0.6 0 0.8", "face i j k r1 r2: the place of a unit vector, and its leftovers"),
    entry("margin", "LEVEL X Y Z", "9 0.6 0 0.8", "in hexagons, how far from its hexagon's border: 0 on it, 0.5 at the centre"),
    entry("nearest", "X Y Z", "0.6 0 0.8", "the nearest face, and the squared distance from its centre"),
    entry("border", "FACE LEVEL I J K [START LENGTH]", "0 1 1 0 0", "a hexagon's border: face x y corner|crossing of each point"),
    entry("pentagon", "FACE LEVEL I J K [START LENGTH]", "0 1 6 0 2", "a pentagon's border, in the same form"),
    entry(
        "globe6",
        "FACE LEVEL I J K [START LENGTH]",
        "0 1 1 0 0",
        "a hexagon's border on the sphere: face x y z corner|crossing of each point",
    ),
    entry("globe5", "FACE LEVEL I J K [START LENGTH]", "0 1 6 0 2", "a pentagon's border on the sphere, in the same form"),
    entry("sphere", "FACE LEVEL X Y", "3 10 63507 -13127.21307056452", "x y z: a plane point of a face as a unit vector"),
    entry("root", "X", "2", "the square root, the nearest double"),
    entry("corners", "FACE LEVEL I J K", "0 0 1 0 0", "the grid level of a cell's corners, then i j k of each of the six"),
    entry("round", "X Y", "0.5 -0.5", "i j k r1 r2: the hexagon of a plane point, and its leftovers"),
    entry("centre", "I J K", "1 1 0", "x y: the centre of a hexagon"),
    entry("meet", "X Y X Y X Y X Y", "0 0 2 2 0 2 2 0", "x y: where two lines meet, each through two points"),
    entry("direction", "FACE FACE", "0 4", "where the second lies: 0 itself, 1, 2, 3 over that edge, 7 elsewhere"),
    entry("turn", "FACE I J K ccw|cw", "0 1 0 0 ccw", "face i j k: the place after a sixth of a turn"),
    entry("step", "FACE LEVEL p|s I J K EDGE", "0 0 p 3 0 0 1", "face i j k: the place named from over edge 1, 2 or 3"),
    entry("cross", "FACE LEVEL p|s I J K yes|no", "0 0 p 3 0 0 no", "face i j k None|FaceEdge|NewFace: one crossing; yes: pentagon turn"),
    entry("settle", "FACE LEVEL p|s I J K", "0 0 p 3 0 0", "face i j k steps: crossings until the place lies on its face"),
    entry("same", "LEVEL FACE I J K FACE I J K", "0 4 4 0 2 0 4 2 0", "yes or no: whether two corners are one, by whatever names"),
    entry("first", "FACE LEVEL I J K", "4 0 4 0 2", "face i j k: of all names of a corner the one with the lowest face"),
    entry("batch", "LEVEL", "9 <vectors.csv >places.csv", "a whole file: for each line x,y,z a line face,i,j,k"),
    entry("region write", "LEVEL [FILE]", "9 north.region <places.csv", "a region list of lines FACE,I,J,K or FACE I J K"),
    entry("region check", "FILE", "north.region", "level LEVEL places COUNT, if FILE is a region list, and whole"),
    entry("region has", "FILE FACE I J K", "north.region 3 9433 0 4829", "yes or no: whether a place is in the region"),
    entry("region list", "FILE", "north.region", "face i j k of each of its places, as region write reads them"),
];

const TOP: &str = "\
heddleplume: which face of the icosahedron, and which hexagon on it, a place on Earth lies in

  heddleplume QUESTION WORDS..                        one question
  heddleplume batch LEVEL <vectors.csv >places.csv    a whole file
  heddleplume help QUESTION                           its form and an example
  heddleplume --version

";

const BOTTOM: &str = "
A vector has length 1. Of a latitude and a longitude it is
  x = cos(lat) cos(lon), y = cos(lat) sin(lon), z = sin(lat)
Doubles are decimals, as 0.6, -1e-3 or nan. The nearest double is taken; the shortest decimal that reads back
as the same double is answered. LEVEL is a cell level 0..15, in step, cross, settle, same, first and sphere an
even grid level 0..16. p is the grid of the cells, s that of their corners, on which the points of a border and
the corners of same and first lie. A border has all corners of the cell, or LENGTH of them from corner START on;
each point has a line of its own. A corner on an edge has a name on both faces, that of a face has five.

The leftovers r1 r2, each at least 0 and below 1, are what the hexagon was chosen by. margin makes of them how
near the line the vector was, in hexagons: from centre to centre of neighbours is 1, about 350 m at level 9. It
is measured on the plane of the face, and sees no edge of a face. Switch a feed only where the new place has
some margin, say 0.05: it then does not flicker along a border, as long as positions jitter by less.

batch answers each line x,y,z by one line, in order. Each has four columns, without leftovers:
  9,0,3944,11640          face,i,j,k
  refused,6,BadNumber,    the word, the refusal's number and name, nothing
A line that is not three numbers is refused too: 14, BadLine. A first line that holds no number is a header,
and a header answers it. Standard error says how many lines were refused, and what to do about them.

region write reads a place a line, as batch writes it or with blanks, in any order; repeats are dropped, and a
first line without a digit is a header. An answer of place has leftovers and is no such line: make lines with
batch. If a line is refused, nothing is written: leave out the rows that a batch refused. FILE is written whole
or not at all, as a new file beside it that then takes its name. Without FILE the list goes to standard output,
where a full disk leaves half a list and not the old one. region check, has and list first check all of FILE. A
place does not tell its level: it must be that of the list.

It ends with 0 if it answered (a batch: to the end, whatever was refused), with 1 if the question was refused
or the input or output failed, with 2 if the words are no question.";

impl Entry {
    pub fn usage(&self) -> String {
        format!("usage: heddleplume {0} {1}\nfor example: heddleplume {0} {2}", self.name, self.form, self.example)
    }
}

/// The entry of a name; of `region`, which is the first word of several, all of them.
fn entries_of(name: &str) -> Vec<&'static Entry> {
    let first = format!("{name} ");
    ENTRIES.iter().filter(|entry| entry.name == name || entry.name.starts_with(&first)).collect()
}

fn of_each(name: &str, text: fn(&Entry) -> String) -> Option<String> {
    let texts: Vec<String> = entries_of(name).into_iter().map(text).collect();
    (!texts.is_empty()).then(|| texts.join("\n"))
}

/// How a question is asked.
pub fn usage_of(name: &str) -> Option<String> {
    of_each(name, Entry::usage)
}

/// Why a name is no question.
pub fn unknown(name: &str) -> Failure {
    Failure::Usage(format!("there is no question `{name}`"))
}

/// The whole help.
pub fn whole() -> String {
    let line = |entry: &Entry| format!("  {:<41}{}\n", format!("{} {}", entry.name, entry.form), entry.answer);
    format!("{TOP}{}{BOTTOM}", ENTRIES.iter().map(line).collect::<String>())
}

/// The help on the question that is named, or all of it.
pub fn on(words: &[String]) -> Result<String, Failure> {
    match words {
        [] => Ok(whole()),
        _ => {
            let name = words.join(" ");
            of_each(&name, |entry| format!("{}\nanswer: {}", entry.usage(), entry.answer)).ok_or_else(|| unknown(&name))
        }
    }
}
