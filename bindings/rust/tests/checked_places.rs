//! The checked places of documents 01 and 02, one after the other.
use heddleplume::{CellLevel, CoordIJK, Direction, FaceIJK, Grid, GridLevel, Landed, Overage, Refusal, Rested, Vec2d, face_direction};

const LEVEL_0: GridLevel = GridLevel(0);

#[test]
fn rounding() {
    let places = [
        ((0.0, 0.0), (0, 0, 0)),
        ((1.0, 0.0), (1, 0, 0)),
        ((-1.0, 0.0), (0, 1, 1)),
        ((0.5, 0.0), (1, 0, 0)),
        ((-0.5, 0.0), (0, 1, 1)),
        ((0.49, 0.0), (0, 0, 0)),
        ((0.9, 0.9), (1, 1, 0)),
        ((0.9, -0.9), (1, 0, 1)),
        ((-0.9, 0.9), (0, 1, 0)),
        ((-0.9, -0.9), (0, 0, 1)),
    ];
    for ((x, y), (i, j, k)) in places {
        assert_eq!(Vec2d::new(x, y).to_ijk().map(|rounded| rounded.hexagon), Ok(CoordIJK::new(i, j, k)), "({x}, {y})");
        assert_eq!(CoordIJK::try_from(Vec2d::new(x, y)), Ok(CoordIJK::new(i, j, k)));
    }
    assert_eq!(Vec2d::new(33554432.0, 0.0).to_ijk(), Err(Refusal::TooFar));
}

#[test]
fn centres_round_to_their_hexagon() {
    assert_eq!(CoordIJK::new(0, 2, 0).centre(), Ok(Vec2d::new(-1.0, 2.0 * 0.8660254037844386)));
    for (i, j, k) in [(0, 0, 0), (5, 3, 0), (0, 7, 2), (9, 0, 4)] {
        let hexagon = CoordIJK::new(i, j, k);
        assert_eq!(hexagon.centre().and_then(CoordIJK::try_from), Ok(hexagon));
    }
}

fn crosses(from: [u32; 4], level: u32, grid: Grid, turn: bool, to: [u32; 4], overage: Overage) {
    let landed = FaceIJK::from(from).cross(GridLevel(level), grid, turn);
    assert_eq!(landed, Ok(Landed { place: to.into(), overage }), "{from:?}");
}

#[test]
fn crossing_on_a_plain_grid() {
    crosses([0, 1, 1, 0], 0, Grid::Plain, false, [0, 1, 1, 0], Overage::None);
    crosses([0, 3, 0, 0], 0, Grid::Plain, false, [4, 3, 1, 0], Overage::NewFace);
}

#[test]
fn crossing_on_a_substrate_grid() {
    crosses([0, 3, 3, 0], 0, Grid::Substrate, false, [0, 3, 3, 0], Overage::FaceEdge);
    crosses([0, 7, 2, 0], 0, Grid::Substrate, false, [4, 5, 1, 0], Overage::FaceEdge);
    crosses([5, 4, 4, 0], 0, Grid::Substrate, false, [10, 2, 2, 0], Overage::NewFace);
}

#[test]
fn crossing_with_the_turn() {
    crosses([0, 14, 0, 1], 2, Grid::Plain, true, [1, 14, 1, 0], Overage::NewFace);
}

#[test]
fn crossing_refused() {
    let cross = |place: [u32; 4], level| FaceIJK::from(place).cross(GridLevel(level), Grid::Plain, false);
    assert_eq!(cross([0, 1, 0, 0], 1), Err(Refusal::BadLevel));
    assert_eq!(cross([0, 1, 1, 1], 0), Err(Refusal::NotReduced));
    assert_eq!(cross([20, 1, 0, 0], 0), Err(Refusal::BadFace));
}

#[test]
fn corners() {
    let at_0 = FaceIJK::new(0, 1, 0, 0).corners(CellLevel(0)).unwrap();
    let six = [[5, 1, 0], [4, 2, 0], [2, 1, 0], [2, 0, 1], [4, 0, 2], [5, 0, 1]];
    assert_eq!(at_0.level, GridLevel(0));
    assert_eq!(at_0.corners, six.map(|[i, j, k]| CoordIJK::new(i, j, k)));
    let at_1 = FaceIJK::new(0, 1, 0, 0).corners(CellLevel(1)).unwrap();
    assert_eq!((at_1.level, at_1.corners[0]), (GridLevel(2), CoordIJK::new(14, 7, 0)));
}

/// The walk `0 0 p 3 0 0`: each step as a crossing, and its rest by settling.
#[test]
fn walk() {
    crosses([0, 3, 0, 0], 0, Grid::Plain, false, [4, 3, 1, 0], Overage::NewFace);
    crosses([4, 3, 1, 0], 0, Grid::Plain, false, [3, 2, 1, 0], Overage::NewFace);
    crosses([3, 2, 1, 0], 0, Grid::Plain, false, [2, 1, 0, 0], Overage::NewFace);
    crosses([2, 1, 0, 0], 0, Grid::Plain, false, [2, 1, 0, 0], Overage::None);
    let rested = FaceIJK::new(0, 3, 0, 0).settle(LEVEL_0, Grid::Plain);
    assert_eq!(rested, Ok(Rested { place: FaceIJK::new(2, 1, 0, 0), steps: 3 }));
    let on_edge = FaceIJK::new(0, 3, 3, 0).settle(LEVEL_0, Grid::Substrate);
    assert_eq!(on_edge, Ok(Rested { place: FaceIJK::new(0, 3, 3, 0), steps: 0 }));
}

#[test]
fn a_step_and_the_step_back() {
    let from = FaceIJK::new(0, 3, 0, 0);
    assert_eq!(face_direction(0, 4), Ok(Direction::OverIJ));
    let over = from.step(LEVEL_0, Grid::Plain, Direction::OverIJ).unwrap();
    assert_eq!(over, FaceIJK::new(4, 3, 1, 0));
    assert_eq!(face_direction(4, 0), Ok(Direction::OverKI));
    assert_eq!(over.step(LEVEL_0, Grid::Plain, Direction::OverKI), Ok(from));
    assert_eq!(face_direction(0, 5), Ok(Direction::OverJK));
    assert_eq!(face_direction(0, 0), Ok(Direction::Itself));
    assert_eq!(face_direction(0, 19), Ok(Direction::Elsewhere));
}

#[test]
fn six_turns_and_a_turn_back() {
    assert_eq!(FaceIJK::new(3, 1, 0, 0).turn(false), Ok(FaceIJK::new(3, 1, 1, 0)));
    assert_eq!(FaceIJK::new(3, 1, 0, 0).turn(true), Ok(FaceIJK::new(3, 1, 0, 1)));
    let place = FaceIJK::new(3, 5, 2, 0);
    let six = (0..6).try_fold(place, |turned, _| turned.turn(false));
    assert_eq!(six, Ok(place));
    assert_eq!(place.turn(false).and_then(|turned| turned.turn(true)), Ok(place));
}

/// Each corner with its first name, at level 0: within a face, on an edge by both names, and where five faces meet.
#[test]
fn first_names() {
    let named = [
        ([7, 1, 2, 0], [7, 1, 2, 0]),
        ([4, 4, 0, 2], [0, 4, 2, 0]),
        ([0, 4, 2, 0], [0, 4, 2, 0]),
        ([3, 6, 0, 0], [0, 6, 0, 0]),
        ([4, 0, 0, 6], [0, 0, 6, 0]),
    ];
    for (corner, first) in named {
        assert_eq!(FaceIJK::from(corner).first_name(LEVEL_0), Ok(first.into()), "{corner:?}");
        assert_eq!(FaceIJK::from(first).first_name(LEVEL_0), Ok(first.into()), "{first:?} twice");
    }
    assert_eq!(FaceIJK::new(0, 7, 0, 0).first_name(LEVEL_0), Err(Refusal::OutOfFace));
}

#[test]
fn one_corner_and_another() {
    let same = |one: [u32; 4], other: [u32; 4]| FaceIJK::from(one).same_corner(other.into(), LEVEL_0);
    assert_eq!(same([4, 4, 0, 2], [0, 4, 2, 0]), Ok(true));
    assert_eq!(same([4, 4, 0, 2], [0, 2, 4, 0]), Ok(false));
    assert_eq!(same([3, 3, 2, 0], [3, 3, 2, 0]), Ok(true));
    assert_eq!(same([3, 3, 2, 0], [3, 3, 0, 2]), Ok(false));
    assert_eq!(same([3, 3, 2, 0], [3, 3, 2, 1]), Err(Refusal::NotReduced));
    assert_eq!(same([3, 3, 2, 0], [3, 5, 2, 0]), Err(Refusal::OutOfFace));
}

/// The corners of all faces, in the order of the faces: each has five names, of which its first one stands before the others.
#[test]
fn five_names() {
    let of_face = |face| [[6, 0, 0], [0, 6, 0], [0, 0, 6]].map(|[i, j, k]| FaceIJK::new(face, i, j, k));
    let corners: Vec<FaceIJK> = (0..20).flat_map(of_face).collect();
    for one in &corners {
        let same = |other: &FaceIJK| one.same_corner(*other, LEVEL_0).expect("a corner of a face lies on it");
        let names: Vec<FaceIJK> = corners.iter().copied().filter(same).collect();
        assert_eq!(names.len(), 5, "{one:?}: {names:?}");
        assert_eq!(one.first_name(LEVEL_0), Ok(names[0]));
    }
}
