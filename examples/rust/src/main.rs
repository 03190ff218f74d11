//! Three coaches report where they are, and the second has no fix: it reports three zeros. Divided by their length these are NaN, which
//! must come out as a refusal between two good answers, never as the answer of a minute ago. Asked one by one, then as a batch.
use std::process::ExitCode;

use heddleplume::{CellLevel, FaceIJK, Frame, Located, Refusal, locate, locate_all, read_row};

const LEVEL: CellLevel = CellLevel(5);

/// Where each receiver says it is, in kilometres from the centre of the Earth.
const REPORTED: [[f64; 3]; 3] = [[4188.24, 172.04, 4797.78], [0.0, 0.0, 0.0], [3966.01, -8.31, 4985.98]];

/// The receivers' own software divides without looking, which is how the NaN arise.
fn divided_by_length(reported: [f64; 3]) -> [f64; 3] {
    let length = reported.iter().map(|part| part * part).sum::<f64>().sqrt();
    reported.map(|part| part / length)
}

/// What the desk does about an answer.
fn told(answer: Result<FaceIJK, Refusal>) -> String {
    match answer {
        Ok(FaceIJK { face, i, j, k }) => format!("face {face}, hexagon {i} {j} {k}: look up its feed"),
        Err(refusal) => refusal.to_string(),
    }
}

/// Asked alone, a receiver's leftovers also say how near the line it is.
fn ask_alone(frame: &Frame, vectors: &[[f64; 3]]) {
    for (n, vector) in vectors.iter().enumerate() {
        let answer = locate(frame, LEVEL, *vector);
        println!("receiver {}: {}", n + 1, told(answer.map(|located| located.place)));
        if let Ok(Located { left, .. }) = answer {
            println!("  {:.3} of a hexagon from its border", left.margin().expect("leftovers that were given are in range"));
        }
    }
}

fn ask_as_batch(frame: &Frame, vectors: &[[f64; 3]]) -> Result<(), Refusal> {
    // The rows hold answers of a minute ago: face 7, hexagon 0 1 1. None of them may survive.
    let mut rows = vec![[7, 0, 1, 1]; vectors.len()];
    let refused = locate_all(frame, LEVEL, vectors, &mut rows, 0)?;
    println!("batch of {}, refused: {refused}", rows.len());
    for (n, row) in rows.into_iter().enumerate() {
        let [a, b, c, d] = row;
        let answer = read_row(row).expect("the batch has written every row");
        println!("row {} holds {a} {b} {c} {d}: {}", n + 1, told(answer));
    }
    Ok(())
}

fn main() -> ExitCode {
    let frame = Frame::default();
    let vectors = REPORTED.map(divided_by_length);
    ask_alone(&frame, &vectors);
    match ask_as_batch(&frame, &vectors) {
        Ok(()) => ExitCode::SUCCESS,
        Err(refusal) => {
            println!("the whole batch is {refusal}");
            ExitCode::FAILURE
        }
    }
}
