//! The duty desk joins the borders of two neighbouring cells that lie on two faces. Each cell names its corners from its own face, so that
//! those which both have look unlike; by their first names they are found, each once.
use std::collections::HashSet;
use std::process::ExitCode;

use heddleplume::{CellLevel, CoordIJK, FaceIJK, Grid, GridLevel, Refusal};

/// Even, so that cells settle on the grid of the same level.
const LEVEL: u32 = 2;

/// A cell with a side along the edge IJ of its face: k is 0, and i + j is one below the limit of the face, 14.
const CELL: FaceIJK = FaceIJK::new(0, 7, 6, 0);

/// A corner as its cell names it, and its first name.
struct Corner {
    named: FaceIJK,
    first: FaceIJK,
}

/// How many corners two cells have, how many of them are different, how many are shared, and how many would be without first names.
#[derive(PartialEq)]
struct Counts {
    corners: usize,
    different: usize,
    shared: usize,
    alike: usize,
}

/// Two hexagons on two faces, with a side in common.
const EXPECTED: Counts = Counts { corners: 12, different: 10, shared: 2, alike: 0 };

fn told(FaceIJK { face, i, j, k }: FaceIJK) -> String {
    format!("face {face}, {i} {j} {k}")
}

/// The cell beyond the edge. One more of i and of j leads there, and settling names it from the face on which it lies.
fn neighbour(cell: FaceIJK) -> Result<FaceIJK, Refusal> {
    let beyond = FaceIJK::new(cell.face, cell.i + 1, cell.j + 1, cell.k);
    Ok(beyond.settle(GridLevel(LEVEL), Grid::Plain)?.place)
}

/// The corners of a cell. Each is settled before it is named: one that lies outside its face would be refused.
fn corners(cell: FaceIJK) -> Result<Vec<Corner>, Refusal> {
    let found = cell.corners(CellLevel(LEVEL))?;
    let corner = |&CoordIJK { i, j, k }: &CoordIJK| {
        let named = FaceIJK::new(cell.face, i, j, k).settle(found.level, Grid::Substrate)?.place;
        Ok(Corner { named, first: named.first_name(found.level)? })
    };
    found.corners.iter().map(corner).collect()
}

/// Tells of each corner that both cells have, and counts.
fn join(one: &[Corner], other: &[Corner]) -> Counts {
    let shared: Vec<(&Corner, &Corner)> =
        one.iter().flat_map(|a| other.iter().map(move |b| (a, b))).filter(|(a, b)| a.first == b.first).collect();
    for (a, b) in &shared {
        println!("shared: {} is {}; first name: {}", told(a.named), told(b.named), told(a.first));
    }
    let different: HashSet<FaceIJK> = one.iter().chain(other).map(|corner| corner.first).collect();
    let alike = one.iter().filter(|a| other.iter().any(|b| a.named == b.named)).count();
    Counts { corners: one.len() + other.len(), different: different.len(), shared: shared.len(), alike }
}

fn join_with_neighbour(cell: FaceIJK) -> Result<Counts, Refusal> {
    let beyond = neighbour(cell)?;
    println!("cells: {} and {}", told(cell), told(beyond));
    Ok(join(&corners(cell)?, &corners(beyond)?))
}

fn main() -> ExitCode {
    match join_with_neighbour(CELL) {
        Ok(counts) => {
            println!("{} corners, {} of them different, {} shared", counts.corners, counts.different, counts.shared);
            println!("without first names, shared: {}", counts.alike);
            if counts == EXPECTED {
                return ExitCode::SUCCESS;
            }
            println!("two neighbours share a side, and so two corners: these do not");
        }
        Err(refusal) => println!("the borders are not joined: {refusal}"),
    }
    ExitCode::FAILURE
}
