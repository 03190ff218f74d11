//! The answers to single questions, as text.
use heddleplume::{Border, BoundaryPoint, CellLevel, CoordIJK, Direction, FaceIJK, Frame, Leftovers, Located, Mark, Refusal, SpherePoint};
use heddleplume::{Vec2d, Vec3d, face_direction, locate, sphere_point, square_root};

use crate::arguments::Words;
use crate::failure::Failure;
use crate::help;

type Answer = Result<String, Failure>;

/// The answer to a question.
pub fn to(name: &str, words: &[String]) -> Answer {
    let answer: fn(&mut Words) -> Answer = match name {
        "place" => place,
        "margin" => margin,
        "nearest" => nearest,
        "border" => |words| border(words, 6, FaceIJK::hexagon_boundary, plane_point_text),
        "pentagon" => |words| border(words, 5, FaceIJK::pentagon_boundary, plane_point_text),
        "globe6" => |words| border(words, 6, on_default(FaceIJK::hexagon_on_sphere), sphere_point_text),
        "globe5" => |words| border(words, 5, on_default(FaceIJK::pentagon_on_sphere), sphere_point_text),
        "sphere" => sphere,
        "root" => root,
        "corners" => corners,
        "round" => round,
        "centre" => centre,
        "meet" => meet,
        "direction" => direction,
        "turn" => turn,
        "step" => step,
        "cross" => cross,
        "settle" => settle,
        "same" => same,
        "first" => first,
        _ => return Err(help::unknown(name)),
    };
    answer(&mut Words::new(words)).map_err(|failure| failure.about(name))
}

fn place_text(FaceIJK { face, i, j, k }: FaceIJK) -> String {
    format!("{face} {i} {j} {k}")
}

/// `{}` of a double is its shortest decimal that reads back as the same.
fn point_text(point: Vec2d) -> String {
    format!("{} {}", point.x, point.y)
}

fn left_text(left: Leftovers) -> String {
    format!("{} {}", left.r1, left.r2)
}

fn located(words: &mut Words) -> Result<Located, Failure> {
    let (level, vector) = (words.cell_level()?, words.vector()?);
    words.end()?;
    Ok(locate(&Frame::default(), level, vector)?)
}

fn place(words: &mut Words) -> Answer {
    let located = located(words)?;
    Ok(format!("{} {}", place_text(located.place), left_text(located.left)))
}

fn margin(words: &mut Words) -> Answer {
    Ok(located(words)?.left.margin()?.to_string())
}

fn nearest(words: &mut Words) -> Answer {
    let vector = words.vector()?;
    words.end()?;
    let (face, distance) = Vec3d::from(vector).closest_face(&Frame::default())?;
    Ok(format!("{face} {distance}"))
}

fn vector_text(vector: Vec3d) -> String {
    format!("{} {} {}", vector.x, vector.y, vector.z)
}

fn mark_text(mark: Mark) -> &'static str {
    if mark == Mark::Corner { "corner" } else { "crossing" }
}

fn plane_point_text(point: &BoundaryPoint) -> String {
    format!("{} {} {} {}", point.face, point.x, point.y, mark_text(point.mark))
}

fn sphere_point_text(point: &SpherePoint) -> String {
    format!("{} {} {}", point.face, vector_text(point.vector), mark_text(point.mark))
}

/// A cell's border, from a corner on, that depends on a frame.
type OnFrame<P> = fn(FaceIJK, &Frame, CellLevel, u32, u32) -> Result<Border<P>, Refusal>;

/// A border on the sphere, on the default frame.
fn on_default<P>(ask: OnFrame<P>) -> impl Fn(FaceIJK, CellLevel, u32, u32) -> Result<Border<P>, Refusal> {
    move |place, level, start, length| ask(place, &Frame::default(), level, start, length)
}

/// A border from its first corner on, or the part that is asked for.
fn border<P>(
    words: &mut Words,
    all: u32,
    ask: impl Fn(FaceIJK, CellLevel, u32, u32) -> Result<Border<P>, Refusal>,
    text: fn(&P) -> String,
) -> Answer {
    let (place, level) = words.place(Words::cell_level)?;
    let (start, length) = if words.is_empty() { (0, all) } else { (words.number("START")?, words.number("LENGTH")?) };
    words.end()?;
    let lines: Vec<String> = ask(place, level, start, length)?.iter().map(text).collect();
    Ok(lines.join("\n"))
}

/// The question's own advice on one refusal, where the general one speaks of what is not behind this question: a receiver, a border.
fn advised(on: Refusal, advice: &'static str) -> impl Fn(Refusal) -> Failure {
    move |refusal| if refusal == on { Failure::Advised(refusal, advice.into()) } else { refusal.into() }
}

fn sphere(words: &mut Words) -> Answer {
    let (face, level, point) = (words.number("FACE")?, words.grid_level()?, words.point()?);
    words.end()?;
    let no_number = advised(Refusal::BadNumber, "pass a finite point that lies on its face or near it");
    Ok(vector_text(sphere_point(&Frame::default(), face, level, point).map_err(no_number)?))
}

fn root(words: &mut Words) -> Answer {
    let number = words.double("X")?;
    words.end()?;
    let no_number = advised(Refusal::BadNumber, "pass a finite number from 0 up");
    Ok(square_root(number).map_err(no_number)?.to_string())
}

fn corners(words: &mut Words) -> Answer {
    let (place, level) = words.place(Words::cell_level)?;
    words.end()?;
    let cell = place.corners(level)?;
    let lines = cell.corners.iter().map(|corner| format!("\n{} {} {}", corner.i, corner.j, corner.k));
    Ok(format!("{}{}", cell.level.0, lines.collect::<String>()))
}

fn round(words: &mut Words) -> Answer {
    let point = words.point()?;
    words.end()?;
    let rounded = point.to_ijk()?;
    let CoordIJK { i, j, k } = rounded.hexagon;
    Ok(format!("{i} {j} {k} {}", left_text(rounded.left)))
}

fn centre(words: &mut Words) -> Answer {
    let hexagon = words.coord()?;
    words.end()?;
    Ok(point_text(hexagon.centre()?))
}

fn meet(words: &mut Words) -> Answer {
    let (first, second) = ((words.point()?, words.point()?), (words.point()?, words.point()?));
    words.end()?;
    Ok(point_text(Vec2d::intersection(first, second)?))
}

fn direction(words: &mut Words) -> Answer {
    let (from, to) = (words.number("FACE")?, words.number("FACE")?);
    words.end()?;
    Ok(face_direction(from, to)?.number().to_string())
}

fn turn(words: &mut Words) -> Answer {
    let (place, ()) = words.place(|_| Ok(()))?;
    let clockwise = words.one_of([("ccw", false), ("cw", true)])?;
    words.end()?;
    Ok(place_text(place.turn(clockwise)?))
}

fn step(words: &mut Words) -> Answer {
    let (place, (level, grid)) = words.place(Words::grid)?;
    let edge = match words.number("EDGE")? {
        1 => Direction::OverIJ,
        2 => Direction::OverKI,
        3 => Direction::OverJK,
        // No edge either: so the library refuses it, after what it refuses first.
        _ => Direction::Elsewhere,
    };
    words.end()?;
    Ok(place_text(place.step(level, grid, edge)?))
}

fn cross(words: &mut Words) -> Answer {
    let (place, (level, grid)) = words.place(Words::grid)?;
    let pentagon_turn = words.one_of([("no", false), ("yes", true)])?;
    words.end()?;
    let landed = place.cross(level, grid, pentagon_turn)?;
    Ok(format!("{} {:?}", place_text(landed.place), landed.overage))
}

fn settle(words: &mut Words) -> Answer {
    let (place, (level, grid)) = words.place(Words::grid)?;
    words.end()?;
    let rested = place.settle(level, grid)?;
    Ok(format!("{} {}", place_text(rested.place), rested.steps))
}

/// A corner that lies outside its face has one remedy.
fn outside(refusal: Refusal) -> Failure {
    advised(Refusal::OutOfFace, "settle the corner first, on the grid s of the same level")(refusal)
}

fn same(words: &mut Words) -> Answer {
    let level = words.grid_level()?;
    let ((one, ()), (other, ())) = (words.place(|_| Ok(()))?, words.place(|_| Ok(()))?);
    words.end()?;
    Ok(if one.same_corner(other, level).map_err(outside)? { "yes" } else { "no" }.into())
}

fn first(words: &mut Words) -> Answer {
    let (place, level) = words.place(Words::grid_level)?;
    words.end()?;
    Ok(place_text(place.first_name(level).map_err(outside)?))
}

#[cfg(test)]
mod tests {
    use super::*;

    #[test]
    fn answered_doubles_read_back() {
        for number in [0.0, -0.0, 0.1, 1.0 / 3.0, -f64::MAX, f64::MIN_POSITIVE, 5e-324, 33554431.999999996] {
            let text = point_text(Vec2d::new(number, -number));
            let back: Vec<u64> = text.split(' ').map(|word| word.parse::<f64>().unwrap().to_bits()).collect();
            assert_eq!(back, [number.to_bits(), (-number).to_bits()], "{text}");
            assert!(!text.contains(['e', 'E']));
        }
    }
}
