//! The frame of twenty faces, and where a unit vector lies in it, alone and as a batch; and the way back, from a face's plane to the sphere.
use crate::answered::answered;
use crate::{CellLevel, FaceIJK, GridLevel, Leftovers, Refusal, Vec2d, ffi};

/// A vector from the centre of the Earth. Of unit length, or it gets [`Refusal::OffSphere`].
#[derive(Clone, Copy, Debug, PartialEq)]
pub struct Vec3d {
    /// The first part.
    pub x: f64,
    /// The second part.
    pub y: f64,
    /// The third part.
    pub z: f64,
}

impl Vec3d {
    /// The vector x, y, z.
    pub const fn new(x: f64, y: f64, z: f64) -> Vec3d {
        Vec3d { x, y, z }
    }

    /// The nearest face, and the squared distance from its centre; of several equally near the lowest. Refusals: 6, 7.
    pub fn closest_face(self, frame: &Frame) -> Result<(u32, f64), Refusal> {
        let mut face = [0];
        let mut distance = [0.0];
        answered(ffi::nearest(&frame.0, self.into(), &mut face, &mut distance))?;
        Ok((face[0], distance[0]))
    }
}

impl From<[f64; 3]> for Vec3d {
    fn from([x, y, z]: [f64; 3]) -> Vec3d {
        Vec3d { x, y, z }
    }
}

impl From<Vec3d> for [f64; 3] {
    fn from(v: Vec3d) -> [f64; 3] {
        [v.x, v.y, v.z]
    }
}

/// Twenty faces of nine doubles: centre, u, v. A frame is tested when it is made, so that a bad one is heard of when it is loaded and
/// not when the first receiver asks.
#[derive(Clone, Debug, PartialEq)]
pub struct Frame([f64; Frame::LEN]);

impl Frame {
    /// How many doubles a frame has.
    pub const LEN: usize = 180;

    /// The frame of these doubles. Refusals: 1.
    pub fn new(numbers: [f64; Frame::LEN]) -> Result<Frame, Refusal> {
        let frame = Frame(numbers);
        // The library tests the frame before anything else, and about this vector nothing else can be wrong.
        Vec3d::new(1.0, 0.0, 0.0).closest_face(&frame)?;
        Ok(frame)
    }

    /// Its doubles.
    pub fn as_array(&self) -> &[f64; Frame::LEN] {
        &self.0
    }
}

/// An icosahedron in the orientation of the public H3 library.
impl Default for Frame {
    fn default() -> Frame {
        let mut numbers = [0.0; Frame::LEN];
        answered(ffi::frame(&mut numbers)).expect("there is room for a frame");
        Frame(numbers)
    }
}

/// The frame of a slice, as it comes from a file. Refusals: 1, for another length than 180 too.
impl TryFrom<&[f64]> for Frame {
    type Error = Refusal;

    fn try_from(numbers: &[f64]) -> Result<Frame, Refusal> {
        Frame::new(numbers.try_into().map_err(|_| Refusal::BadFrame)?)
    }
}

/// The plane point of a unit vector on a face that the caller names. Refusals: 3, 4, 6, 7, 8.
pub fn plane_point(frame: &Frame, face: u32, level: CellLevel, vector: impl Into<[f64; 3]>) -> Result<Vec2d, Refusal> {
    let mut out = [0.0; 2];
    answered(ffi::plane_point(&frame.0, face, level.0, vector.into(), &mut out))?;
    Ok(Vec2d::new(out[0], out[1]))
}

/// The unit vector of a plane point of a face, on the substrate grid of a grid level: the way back from [`plane_point`], for points of
/// borders. No point is too far for it. Refusals: 3, 4, 6, 8.
pub fn sphere_point(frame: &Frame, face: u32, level: GridLevel, point: Vec2d) -> Result<Vec3d, Refusal> {
    let mut out = [0.0; 3];
    answered(ffi::sphere(&frame.0, face, level.0, [point.x, point.y], &mut out))?;
    Ok(out.into())
}

/// The square root, worked out from the bits: the nearest double, and minus zero of minus zero. Refusals: 6, for a number below 0 too.
pub fn square_root(x: f64) -> Result<f64, Refusal> {
    let mut out = [0.0];
    answered(ffi::root(x, &mut out))?;
    Ok(out[0])
}

/// The place of a unit vector, and what was left over.
#[derive(Clone, Copy, Debug, PartialEq)]
pub struct Located {
    /// The place.
    pub place: FaceIJK,
    /// The leftovers of its plane point on that face, by which the hexagon was chosen.
    pub left: Leftovers,
}

/// The place of a unit vector, and the leftovers, which say how near the border of its hexagon it lies. Refusals: 4, 6, 7, 8.
///
/// ```
/// use heddleplume::{CellLevel, FaceIJK, Frame, Refusal, locate};
/// let frame = Frame::default();
/// let located = locate(&frame, CellLevel(9), [0.6, 0.0, 0.8])?;
/// assert_eq!(located.place, FaceIJK::new(3, 9433, 0, 4829));
/// // Its border is about a tenth of a hexagon away.
/// assert!((located.left.margin()? - 0.1).abs() < 0.01);
/// // Three zeros divided by their length.
/// assert_eq!(locate(&frame, CellLevel(9), [0.0 / 0.0; 3]), Err(Refusal::BadNumber));
/// # Ok::<(), Refusal>(())
/// ```
pub fn locate(frame: &Frame, level: CellLevel, vector: impl Into<[f64; 3]>) -> Result<Located, Refusal> {
    let (mut out, mut left) = ([0; 4], [0.0; 2]);
    answered(ffi::place(&frame.0, vector.into(), level.0, &mut out, &mut left))?;
    Ok(Located { place: out.into(), left: left.into() })
}

/// The places of a batch into lent rows: row `first + n` is written for vector n, and no other. It holds face, i, j, k; or, if the vector
/// is refused, minus the refusal (6, 7 or 8), 0, 0, 0, never what it held before. Returns how many rows were refused. A row has no
/// leftovers: [`locate`] gives them.
///
/// Refusals of the whole batch, which write no row: 2 if the rows from `first` on are fewer than the vectors, 4.
pub fn locate_all(frame: &Frame, level: CellLevel, vectors: &[[f64; 3]], rows: &mut [[i32; 4]], first: usize) -> Result<usize, Refusal> {
    let mut refused = [0];
    let (input, out) = (vectors.as_flattened(), rows.as_flattened_mut());
    answered(ffi::batch(&frame.0, level.0, input, out, first, &mut refused))?;
    Ok(refused[0].try_into().expect("no more rows are refused than there are"))
}

/// The same without lent rows: one answer of its own for each vector. Refusals of the whole batch: 4.
pub fn locate_each(frame: &Frame, level: CellLevel, vectors: &[[f64; 3]]) -> Result<Vec<Result<FaceIJK, Refusal>>, Refusal> {
    let mut rows = vec![[0; 4]; vectors.len()];
    locate_all(frame, level, vectors, &mut rows, 0)?;
    Ok(rows.into_iter().map(|row| read_row(row).expect("the batch has written every row")).collect())
}

/// What a row of a batch says: a place, or the refusal of its vector. None if it is no row that a batch writes. An old row reads like a
/// new one: read those that the last batch wrote, and only if it was not refused as a whole; or ask with [`locate_each`].
pub fn read_row(row: [i32; 4]) -> Option<Result<FaceIJK, Refusal>> {
    if row[0] < 0 {
        let refusal = Refusal::from_number(row[0].unsigned_abs())?;
        return (row[1..] == [0, 0, 0]).then_some(Err(refusal));
    }
    let [face, i, j, k] = row.map(|number| u32::try_from(number).ok());
    let place = FaceIJK::new(face?, i?, j?, k?);
    let least = place.i.min(place.j).min(place.k);
    (place.face < 20 && least == 0).then_some(Ok(place))
}
