//! Levels, maps and plane points, through the safe functions.
use heddleplume::{CellLevel, CoordIJK, Frame, Grid, GridLevel, GridMap, Located, Refusal, Rounded, Sizes, Vec2d, Vec3d};
use heddleplume::{locate, plane_point};

#[test]
fn odd_levels_are_raised() {
    for level in 0..16 {
        assert_eq!(CellLevel(level).raise(), Ok(GridLevel(level + level % 2)));
    }
    assert_eq!(CellLevel(16).raise(), Err(Refusal::BadLevel));
}

#[test]
fn sizes_of_grids() {
    for level in (0..=16).step_by(2) {
        let unit = 7u32.pow(level / 2);
        assert_eq!(GridLevel(level).sizes(Grid::Plain), Ok(Sizes { unit, limit: 2 * unit }));
        assert_eq!(GridLevel(level).sizes(Grid::Substrate), Ok(Sizes { unit: 3 * unit, limit: 6 * unit }));
        assert_eq!(GridLevel(level + 1).sizes(Grid::Plain), Err(Refusal::BadLevel));
    }
}

#[test]
fn reducing() {
    assert_eq!(CoordIJK::new(5, 2, 3).reduce(), CoordIJK::new(3, 0, 1));
    assert_eq!(CoordIJK::new(u32::MAX, u32::MAX, u32::MAX).reduce(), CoordIJK::default());
}

#[test]
fn maps_turn_and_refine() {
    let at = CoordIJK::new(5, 2, 0);
    let six = (0..6).try_fold(at, |turned, _| turned.map(GridMap::SixthTurnCcw));
    assert_eq!(six, Ok(at));
    assert_eq!(at.map(GridMap::SixthTurnCw).and_then(|turned| turned.map(GridMap::SixthTurnCcw)), Ok(at));
    // Both apertures 3 together are three times as fine, and turn nothing.
    assert_eq!(at.map(GridMap::Aperture3Ccw).and_then(|finer| finer.map(GridMap::Aperture3Cw)), Ok(CoordIJK::new(15, 6, 0)));
    assert_eq!(CoordIJK::new(1, 0, 0).map(GridMap::Aperture7Cw), Ok(CoordIJK::new(3, 1, 0)));
    assert_eq!(CoordIJK::new(1, 1, 1).map(GridMap::Aperture7Cw), Err(Refusal::NotReduced));
}

#[test]
fn points_alike() {
    let (near, far) = (Vec2d::new(1.0 + 1.0 / 8388608.0, 2.0), Vec2d::new(1.0, 2.5));
    assert_eq!(Vec2d::new(1.0, 2.0).alike(near), Ok(true));
    assert_eq!(Vec2d::new(1.0, 2.0).alike(far), Ok(false));
    assert_eq!(Vec2d::new(f64::NAN, 2.0).alike(near), Err(Refusal::BadNumber));
}

#[test]
fn a_place_is_its_plane_point_rounded() {
    let frame = Frame::default();
    for vector in [[1.0, 0.0, 0.0], [0.0, 0.6, 0.8], [-0.6, 0.0, -0.8]] {
        let (face, _) = Vec3d::from(vector).closest_face(&frame).unwrap();
        for level in 0..16 {
            let point = plane_point(&frame, face, CellLevel(level), vector).unwrap();
            let Located { place, left } = locate(&frame, CellLevel(level), vector).unwrap();
            assert_eq!((place.face, Ok(Rounded { hexagon: place.coord(), left })), (face, point.to_ijk()));
        }
    }
    assert_eq!(plane_point(&frame, 20, CellLevel(16), [f64::NAN; 3]), Err(Refusal::BadFace));
}
