//! The refusals as this crate gives them: fifteen with their numbers, and each one that a question can get.
use std::error::Error;

use heddleplume::{CellLevel, CoordIJK, Direction, FaceIJK, Frame, Grid, GridLevel, Mark, Refusal, Vec2d, Vec3d};
use heddleplume::{face_direction, locate, locate_all, locate_each, plane_point, read_row, sphere_point, square_root};

#[test]
fn fifteen_with_their_numbers() {
    let numbers: Vec<u32> = Refusal::ALL.iter().map(|refusal| refusal.number()).collect();
    assert_eq!(numbers, (1..=15).collect::<Vec<u32>>());
    for refusal in Refusal::ALL {
        assert_eq!(Refusal::from_number(refusal.number()), Some(refusal));
        let said = refusal.to_string();
        assert!(said.starts_with(&format!("refused {} {refusal:?}: ", refusal.number())) && said.ends_with(refusal.advice()));
    }
    for number in [0, 16, u32::MAX] {
        assert_eq!(Refusal::from_number(number), None);
    }
    let error: Box<dyn Error> = Refusal::OffSphere.into();
    assert_eq!(error.to_string(), "refused 7 OffSphere: divide the vector by its length first");
}

fn one_sided() -> [f64; 180] {
    let face = [0.0, 0.0, 1.0, 1.0, 0.0, 0.0, 0.0, 1.0, 0.0];
    std::array::from_fn(|n| face[n % 9])
}

#[test]
fn a_frame_is_tested_when_it_is_made() {
    let default = Frame::default();
    assert_eq!(Frame::new(*default.as_array()), Ok(default.clone()));
    assert_eq!(Frame::try_from(&default.as_array()[..]), Ok(default.clone()));
    assert_eq!(Frame::try_from(&default.as_array()[1..]), Err(Refusal::BadFrame));
    assert_eq!(Frame::new([0.0; 180]), Err(Refusal::BadFrame));
    let mut without_number = *default.as_array();
    without_number[100] = f64::NAN;
    assert_eq!(Frame::new(without_number), Err(Refusal::BadFrame));
}

#[test]
fn vectors() {
    let frame = Frame::default();
    let ask = |level, vector: [f64; 3]| locate(&frame, CellLevel(level), vector);
    assert_eq!(ask(16, [f64::NAN; 3]), Err(Refusal::BadLevel));
    assert_eq!(ask(9, [f64::NAN; 3]), Err(Refusal::BadNumber));
    assert_eq!(ask(9, [1.0, f64::INFINITY, 0.0]), Err(Refusal::BadNumber));
    assert_eq!(ask(9, [0.0; 3]), Err(Refusal::OffSphere));
    let behind = locate(&Frame::new(one_sided()).unwrap(), CellLevel(9), [0.0, 0.0, -1.0]);
    assert_eq!(behind, Err(Refusal::Behind));
    assert_eq!(Vec3d::new(f64::NAN, 0.0, 0.0).closest_face(&frame), Err(Refusal::BadNumber));
    assert_eq!(Vec3d::new(2.0, 0.0, 0.0).closest_face(&frame), Err(Refusal::OffSphere));
}

#[test]
fn each_centre_is_nearest_to_its_own_face() {
    let frame = Frame::default();
    for (face, axes) in frame.as_array().chunks(9).enumerate() {
        let centre = Vec3d::new(axes[0], axes[1], axes[2]);
        assert_eq!(centre.closest_face(&frame), Ok((face as u32, 0.0)));
        assert_eq!(locate(&frame, CellLevel(15), centre).map(|located| located.place), Ok(FaceIJK::new(face as u32, 0, 0, 0)));
    }
}

#[test]
fn the_plane() {
    let nan = Vec2d::new(0.0, f64::NAN);
    let (origin, east, north) = (Vec2d::new(0.0, 0.0), Vec2d::new(1.0, 0.0), Vec2d::new(0.0, 1.0));
    assert_eq!(nan.to_ijk(), Err(Refusal::BadNumber));
    assert_eq!(Vec2d::new(0.0, 1e300).to_ijk(), Err(Refusal::TooFar));
    assert_eq!(CoordIJK::new(1, 1, 1).centre(), Err(Refusal::NotReduced));
    assert_eq!(Vec2d::intersection((origin, east), (nan, north)), Err(Refusal::BadNumber));
    assert_eq!(Vec2d::intersection((origin, east), (origin, east)), Err(Refusal::NoCrossing));
    assert_eq!(Vec2d::intersection((origin, east), (origin, north)), Ok(origin));
}

#[test]
fn places() {
    let (beyond, unreduced) = (FaceIJK::new(20, 0, 0, 0), FaceIJK::new(0, 1, 1, 1));
    let (even, odd) = (GridLevel(0), GridLevel(1));
    assert_eq!(face_direction(0, 20), Err(Refusal::BadFace));
    assert_eq!(beyond.turn(true), Err(Refusal::BadFace));
    assert_eq!(unreduced.turn(true), Err(Refusal::NotReduced));
    assert_eq!(beyond.step(odd, Grid::Plain, Direction::Itself), Err(Refusal::BadFace));
    assert_eq!(unreduced.step(odd, Grid::Plain, Direction::Itself), Err(Refusal::BadLevel));
    assert_eq!(unreduced.step(even, Grid::Plain, Direction::Itself), Err(Refusal::BadRange));
    assert_eq!(unreduced.step(even, Grid::Plain, Direction::Elsewhere), Err(Refusal::BadRange));
    assert_eq!(unreduced.step(even, Grid::Plain, Direction::OverJK), Err(Refusal::NotReduced));
    assert_eq!(beyond.settle(odd, Grid::Plain), Err(Refusal::BadFace));
    assert_eq!(unreduced.settle(odd, Grid::Plain), Err(Refusal::BadLevel));
    assert_eq!(unreduced.settle(even, Grid::Plain), Err(Refusal::NotReduced));
}

#[test]
fn corners_and_their_names() {
    let (beyond, unreduced, outside) = (FaceIJK::new(20, 1, 1, 1), FaceIJK::new(0, 7, 7, 7), FaceIJK::new(0, 7, 0, 0));
    let (even, odd) = (GridLevel(0), GridLevel(1));
    assert_eq!(unreduced.same_corner(beyond, odd), Err(Refusal::BadFace));
    assert_eq!(outside.same_corner(unreduced, odd), Err(Refusal::BadLevel));
    assert_eq!(outside.same_corner(unreduced, even), Err(Refusal::NotReduced));
    assert_eq!(FaceIJK::new(0, 1, 0, 0).same_corner(outside, even), Err(Refusal::OutOfFace));
    assert_eq!(beyond.first_name(odd), Err(Refusal::BadFace));
    assert_eq!(unreduced.first_name(odd), Err(Refusal::BadLevel));
    assert_eq!(unreduced.first_name(even), Err(Refusal::NotReduced));
    assert_eq!(outside.first_name(even), Err(Refusal::OutOfFace));
    // What the advice says: settled, it has one.
    let settled = outside.settle(even, Grid::Substrate).unwrap().place;
    assert!(settled.first_name(even).is_ok(), "{settled:?}");
}

#[test]
fn cells() {
    let (beyond, unreduced, far) = (FaceIJK::new(20, 0, 0, 0), FaceIJK::new(0, 1, 1, 1), FaceIJK::new(0, 3, 0, 0));
    assert_eq!(beyond.corners(CellLevel(16)), Err(Refusal::BadFace));
    assert_eq!(unreduced.corners(CellLevel(16)), Err(Refusal::BadLevel));
    assert_eq!(unreduced.corners(CellLevel(15)), Err(Refusal::NotReduced));
    assert_eq!(beyond.hexagon_boundary(CellLevel(16), 0, 6), Err(Refusal::BadFace));
    assert_eq!(unreduced.hexagon_boundary(CellLevel(16), 6, 6), Err(Refusal::BadLevel));
    assert_eq!(unreduced.hexagon_boundary(CellLevel(15), 6, 6), Err(Refusal::BadRange));
    assert_eq!(unreduced.pentagon_boundary(CellLevel(15), 0, 6), Err(Refusal::BadRange));
    assert_eq!(unreduced.pentagon_boundary(CellLevel(15), 0, 5), Err(Refusal::NotReduced));
    assert_eq!(far.hexagon_boundary(CellLevel(0), 0, 6), Err(Refusal::OutOfFace));
    let no_pentagon = FaceIJK::new(0, 0, 0, 0).pentagon_boundary(CellLevel(1), 0, 2);
    assert_eq!(no_pentagon, Err(Refusal::NotAdjacent));
}

#[test]
fn a_border_within_a_face_is_its_corners() {
    let cell = FaceIJK::new(0, 0, 0, 0);
    let corners = cell.corners(CellLevel(0)).unwrap().corners;
    let hexagon = cell.hexagon_boundary(CellLevel(0), 0, 6).unwrap();
    assert_eq!(hexagon.len(), 6);
    for (point, corner) in hexagon.iter().zip(corners) {
        assert_eq!((point.mark, point.face), (Mark::Corner, 0));
        assert_eq!(corner.centre(), Ok(Vec2d::new(point.x, point.y)));
    }
}

#[test]
fn an_empty_border() {
    let empty = FaceIJK::new(0, 0, 0, 0).hexagon_boundary(CellLevel(0), 0, 0).unwrap();
    assert!(empty.is_empty());
}

#[test]
fn a_border_over_an_edge_has_crossing_points() {
    let cells = (0..8).map(|i| FaceIJK::new(0, i, 0, 0).hexagon_boundary(CellLevel(1), 0, 6));
    let crossed = cells.filter_map(Result::ok).find(|border| border.len() > 6).expect("a hexagon lies across an edge");
    let crossings: Vec<_> = crossed.iter().filter(|point| point.mark == Mark::Crossing).collect();
    assert_eq!(crossed.len(), 6 + crossings.len());
    assert!(crossed.iter().any(|point| point.face != 0) && crossings.iter().all(|point| point.x.is_finite() && point.y.is_finite()));
}

/// The incident: a receiver with no fix between two good ones, in rows that hold old answers.
#[test]
fn no_fix_between_two_good_ones() {
    let frame = Frame::default();
    let zeros = [0.0f64; 3];
    let length = zeros.iter().map(|part| part * part).sum::<f64>().sqrt();
    let vectors = [[1.0, 0.0, 0.0], zeros.map(|part| part / length), [0.0, 0.0, 1.0]];
    let old = [7, 0, 1, 1];
    let mut rows = [old; 5];
    assert_eq!(locate_all(&frame, CellLevel(9), &vectors, &mut rows, 1), Ok(1));
    let alone = vectors.map(|vector| locate(&frame, CellLevel(9), vector).map(|located| located.place));
    assert_eq!(alone[1], Err(Refusal::BadNumber));
    assert_eq!((rows[0], rows[2], rows[4]), (old, [-6, 0, 0, 0], old));
    for (row, answer) in rows[1..4].iter().zip(alone) {
        assert_eq!(read_row(*row), Some(answer));
    }
    assert_eq!(locate_each(&frame, CellLevel(9), &vectors), Ok(alone.to_vec()));
}

#[test]
fn a_refused_batch_keeps_its_rows() {
    let frame = Frame::default();
    let vectors = [[1.0, 0.0, 0.0]; 2];
    let mut rows = [[7; 4]; 2];
    assert_eq!(locate_all(&frame, CellLevel(9), &vectors, &mut rows, 1), Err(Refusal::BadRows));
    assert_eq!(locate_all(&frame, CellLevel(9), &vectors, &mut rows, usize::MAX), Err(Refusal::BadRows));
    assert_eq!(locate_all(&frame, CellLevel(16), &vectors, &mut rows, 0), Err(Refusal::BadLevel));
    assert_eq!(locate_each(&frame, CellLevel(16), &vectors), Err(Refusal::BadLevel));
    assert_eq!(rows, [[7; 4]; 2]);
    assert_eq!(locate_all(&frame, CellLevel(9), &[], &mut [], 0), Ok(0));
}

#[test]
fn rows_that_no_batch_writes() {
    for row in [[-16, 0, 0, 0], [i32::MIN, 0, 0, 0], [-6, 0, 0, 1], [20, 0, 0, 0], [7; 4], [0, -1, 0, 0]] {
        assert_eq!(read_row(row), None, "{row:?}");
    }
    assert_eq!(read_row([19, 0, 5, 6]), Some(Ok(FaceIJK::new(19, 0, 5, 6))));
}

#[test]
fn roots() {
    assert_eq!(square_root(2.0), Ok(2f64.sqrt()));
    assert_eq!(square_root(-0.0).map(f64::to_bits), Ok((-0f64).to_bits()));
    for bad in [-1.0, f64::NAN, f64::INFINITY] {
        assert_eq!(square_root(bad), Err(Refusal::BadNumber));
    }
}

/// A point on the sphere is taken by every question about vectors, and leads back to its plane point.
#[test]
fn to_the_sphere_and_back() {
    let frame = Frame::default();
    for (face, point) in [(0, Vec2d::new(1.0, 0.5)), (7, Vec2d::new(-3.0, 2.0)), (19, Vec2d::new(0.0, 0.0))] {
        let vector = sphere_point(&frame, face, GridLevel(2), point).unwrap();
        assert_eq!(vector.closest_face(&frame).map(|(nearest, _)| nearest), Ok(face));
        // The substrate grid has three steps for one of the plane.
        let back = plane_point(&frame, face, CellLevel(2), vector).unwrap();
        assert!((3.0 * back.x - point.x).abs() < 1e-12 && (3.0 * back.y - point.y).abs() < 1e-12, "{back:?}");
    }
    assert_eq!(sphere_point(&frame, 20, GridLevel(1), Vec2d::new(f64::NAN, 0.0)), Err(Refusal::BadFace));
    assert_eq!(sphere_point(&frame, 0, GridLevel(1), Vec2d::new(f64::NAN, 0.0)), Err(Refusal::BadLevel));
    assert_eq!(sphere_point(&frame, 0, GridLevel(2), Vec2d::new(f64::NAN, 0.0)), Err(Refusal::BadNumber));
}

#[test]
fn a_border_on_the_sphere_is_that_on_the_plane() {
    let frame = Frame::default();
    let pentagon = FaceIJK::new(0, 6, 0, 2);
    let (plane, sphere) =
        (pentagon.pentagon_boundary(CellLevel(1), 0, 5).unwrap(), pentagon.pentagon_on_sphere(&frame, CellLevel(1), 0, 5).unwrap());
    assert_eq!((plane.len(), sphere.len()), (10, 10));
    for (flat, round) in plane.iter().zip(sphere.iter()) {
        assert_eq!((flat.face, flat.mark), (round.face, round.mark));
        assert_eq!(sphere_point(&frame, flat.face, GridLevel(2), Vec2d::new(flat.x, flat.y)), Ok(round.vector));
        assert!(locate(&frame, CellLevel(15), round.vector).is_ok());
    }
    let far = FaceIJK::new(0, 3, 0, 0).hexagon_on_sphere(&frame, CellLevel(0), 0, 6);
    assert_eq!(far, Err(Refusal::OutOfFace));
}
