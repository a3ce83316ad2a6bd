//! Safe wrappers over the unit's C functions (include/tangents.h), and the oracle's text format.
//!
//! Each wrapper lends slices; `h` has four numbers per halfedge: start, end, pair and row. The unit itself asks every question about their
//! lengths and contents, so nothing is tested here.
//!
//! The header asks of a caller that each list has the length that is said and is aligned, as a slice is; that one that is written overlaps no
//! other, as where it is lent `&mut`, or is a vector or an array of its own; and stack, without which the system ends the program. Numbers,
//! lengths and contents may be any.

pub mod case;
pub mod drawing;
pub mod output;
mod refused;
pub mod solid;

pub use refused::Refused;

mod raw {
    extern "C" {
        pub fn tangents_linearize_flat_tangents(
            n: usize, p: usize, h: *const i32, h_len: usize, pos: *const f64, pos_len: usize, t: *mut f64, t_len: usize,
            answer: *mut usize, answer_len: usize,
        );
        pub fn tangents_valid_tangents(
            n: usize, p: usize, h: *const i32, h_len: usize, pos: *const f64, pos_len: usize, t: *const f64, t_len: usize,
            answer: *mut usize, answer_len: usize,
        );
        pub fn tangents_sharpen_edges(
            n: usize, p: usize, h: *const i32, h_len: usize, face_normals: *const f64, face_normals_len: usize, angle: f64, smooth: f64,
            entries: *mut usize, entries_len: usize, smoothness: *mut f64, smoothness_len: usize,
            answer: *mut usize, answer_len: usize,
        );
        pub fn tangents_sharpen_edges_clean(
            n: usize, p: usize, h: *const i32, h_len: usize, face_normals: *const f64, face_normals_len: usize, angle: f64, smooth: f64,
            entries: *mut usize, entries_len: usize, smoothness: *mut f64, smoothness_len: usize,
            answer: *mut usize, answer_len: usize,
        );
        pub fn tangents_distribute_tangents(
            n: usize, p: usize, h: *const i32, h_len: usize, pos: *const f64, pos_len: usize, normals: *const f64, normals_len: usize,
            fixed: *const u8, fixed_len: usize, t: *mut f64, t_len: usize, current: *mut f64, current_len: usize,
            desired: *mut f64, desired_len: usize, answer: *mut usize, answer_len: usize,
        );
        pub fn tangents_preview_tangents(
            n: usize, p: usize, h: *const i32, h_len: usize, pos: *const f64, pos_len: usize, normals: *const f64, normals_len: usize,
            fixed: *const u8, fixed_len: usize, t: *const f64, t_len: usize, bytes: *mut u8, bytes_len: usize,
            answer: *mut usize, answer_len: usize,
        );
        pub fn tangents_create_tangents(
            n: usize, p: usize, h: *const i32, h_len: usize, pos: *const f64, pos_len: usize, normals: *const f64, normals_len: usize,
            face_normals: *const f64, face_normals_len: usize, refs: *const i32, refs_len: usize,
            entries: *const usize, entries_len: usize, smoothness: *const f64, smoothness_len: usize, old: usize, t: *mut f64, t_len: usize,
            fixed: *mut u8, fixed_len: usize, flat: *mut u8, flat_len: usize, smooth: *mut f64, smooth_len: usize,
            desired: *mut f64, desired_len: usize, at: *mut usize, at_len: usize, link: *mut usize, link_len: usize,
            answer: *mut usize, answer_len: usize,
        );
        pub fn tangents_create_tangents_from_normals(
            n: usize, p: usize, h: *const i32, h_len: usize, pos: *const f64, pos_len: usize, normals: *const f64, normals_len: usize,
            face_normals: *const f64, face_normals_len: usize, refs: *const i32, refs_len: usize,
            rows: *const f64, rows_len: usize, old: usize, t: *mut f64, t_len: usize,
            fixed: *mut u8, fixed_len: usize, inside: *mut u8, inside_len: usize, current: *mut f64, current_len: usize,
            desired: *mut f64, desired_len: usize, first: *mut usize, first_len: usize, answer: *mut usize, answer_len: usize,
        );
        pub fn tangents_read_stl(
            file: *const u8, file_len: usize, pos: *mut f64, pos_len: usize, h: *mut i32, h_len: usize,
            face_normals: *mut f64, face_normals_len: usize, answer: *mut usize, answer_len: usize,
        );
        pub fn tangents_curve_at(
            controls: *const f64, controls_len: usize, x: f64, point: *mut f64, point_len: usize, answer: *mut usize, answer_len: usize,
        );
        pub fn tangents_curve_points(
            controls: *const f64, controls_len: usize, count: usize, points: *mut f64, points_len: usize, answer: *mut usize, answer_len: usize,
        );
    }
}

/// The two numbers of an accepted call, or the refusal.
fn outcome(answer: [usize; 4]) -> Result<[usize; 2], Refused> {
    match answer {
        [0, _, first, second] => Ok([first, second]),
        [number, place, ..] => Err(Refused { number, place }),
    }
}

/// Straightening: the Rust's `linearize_flat_tangents`.
pub fn linearize_flat_tangents(n: usize, p: usize, h: &[i32], pos: &[f64], t: &mut [f64]) -> Result<(), Refused> {
    let mut answer = [0; 4];
    // SAFETY: each pointer and length are those of one list; those that are written, t and answer, overlap no other.
    unsafe {
        raw::tangents_linearize_flat_tangents(
            n, p, h.as_ptr(), h.len(), pos.as_ptr(), pos.len(), t.as_mut_ptr(), t.len(), answer.as_mut_ptr(), 4,
        );
    }
    outcome(answer).map(|_| ())
}

/// The mark check: the Rust's `valid_tangents`.
pub fn valid_tangents(n: usize, p: usize, h: &[i32], pos: &[f64], t: &[f64]) -> Result<bool, Refused> {
    let mut answer = [0; 4];
    // SAFETY: each pointer and length are those of one list; the one that is written, answer, overlaps no other.
    unsafe {
        raw::tangents_valid_tangents(n, p, h.as_ptr(), h.len(), pos.as_ptr(), pos.len(), t.as_ptr(), t.len(), answer.as_mut_ptr(), 4);
    }
    outcome(answer).map(|[valid, _]| valid == 1)
}

/// What a crease listing answers: the number of its own entries, and the tally, which for either listing is half of the clean one's entries.
#[derive(Clone, Copy, Debug, PartialEq, Eq)]
pub struct Listed {
    pub entries: usize,
    pub tally: usize,
}

/// A crease listing of the unit.
type RawListing =
    unsafe extern "C" fn(usize, usize, *const i32, usize, *const f64, usize, f64, f64, *mut usize, usize, *mut f64, usize, *mut usize, usize);

#[allow(clippy::too_many_arguments)]
fn listed_by(
    raw: RawListing, n: usize, p: usize, h: &[i32], face_normals: &[f64], angle: f64, smooth: f64, entries: &mut [usize], smoothness: &mut [f64],
) -> Result<Listed, Refused> {
    let mut answer = [0; 4];
    // SAFETY: each pointer and length are those of one list; those that are written, entries, smoothness and answer, overlap no
    // other. Both listings have these parameters.
    unsafe {
        raw(
            n, p, h.as_ptr(), h.len(), face_normals.as_ptr(), face_normals.len(), angle, smooth, entries.as_mut_ptr(), entries.len(),
            smoothness.as_mut_ptr(), smoothness.len(), answer.as_mut_ptr(), 4,
        );
    }
    outcome(answer).map(|[entries, tally]| Listed { entries, tally })
}

/// The ported crease listing: the Rust's `sharpen_edges`, with the angle in degrees.
#[allow(clippy::too_many_arguments)]
pub fn sharpen_edges(
    n: usize, p: usize, h: &[i32], face_normals: &[f64], angle: f64, smooth: f64, entries: &mut [usize], smoothness: &mut [f64],
) -> Result<Listed, Refused> {
    listed_by(raw::tangents_sharpen_edges, n, p, h, face_normals, angle, smooth, entries, smoothness)
}

/// The clean crease listing (docs/changes/06-clean-listing.md): the ported one without the edges that touch a face normal whose numbers are all zero.
#[allow(clippy::too_many_arguments)]
pub fn sharpen_edges_clean(
    n: usize, p: usize, h: &[i32], face_normals: &[f64], angle: f64, smooth: f64, entries: &mut [usize], smoothness: &mut [f64],
) -> Result<Listed, Refused> {
    listed_by(raw::tangents_sharpen_edges_clean, n, p, h, face_normals, angle, smooth, entries, smoothness)
}

/// The two counts of spreading and of its preview.
#[derive(Clone, Copy, Debug, PartialEq, Eq)]
pub struct Counts {
    pub looked: usize,
    pub turned: usize,
}

/// Spreading: the Rust's `distribute_tangents`. The two scratch lists have one place per halfedge and hold zeros afterwards.
#[allow(clippy::too_many_arguments)]
pub fn distribute_tangents(
    n: usize, p: usize, h: &[i32], pos: &[f64], normals: &[f64], fixed: &[u8], t: &mut [f64], current: &mut [f64], desired: &mut [f64],
) -> Result<Counts, Refused> {
    let mut answer = [0; 4];
    // SAFETY: each pointer and length are those of one list; those that are written, t, current, desired and answer, overlap no other.
    unsafe {
        raw::tangents_distribute_tangents(
            n, p, h.as_ptr(), h.len(), pos.as_ptr(), pos.len(), normals.as_ptr(), normals.len(), fixed.as_ptr(), fixed.len(),
            t.as_mut_ptr(), t.len(), current.as_mut_ptr(), current.len(), desired.as_mut_ptr(), desired.len(), answer.as_mut_ptr(), 4,
        );
    }
    outcome(answer).map(|[looked, turned]| Counts { looked, turned })
}

/// The preview of spreading: the counts that `distribute_tangents` would give. `bytes` has one place per halfedge, 1 afterwards if its
/// tangent would be written, else 0.
#[allow(clippy::too_many_arguments)]
pub fn preview_tangents(
    n: usize, p: usize, h: &[i32], pos: &[f64], normals: &[f64], fixed: &[u8], t: &[f64], bytes: &mut [u8],
) -> Result<Counts, Refused> {
    let mut answer = [0; 4];
    // SAFETY: each pointer and length are those of one list; those that are written, bytes and answer, overlap no other.
    unsafe {
        raw::tangents_preview_tangents(
            n, p, h.as_ptr(), h.len(), pos.as_ptr(), pos.len(), normals.as_ptr(), normals.len(), fixed.as_ptr(), fixed.len(),
            t.as_ptr(), t.len(), bytes.as_mut_ptr(), bytes.len(), answer.as_mut_ptr(), 4,
        );
    }
    outcome(answer).map(|[looked, turned]| Counts { looked, turned })
}

/// What the makings count: the circular tangents that were computed on an edge without direction, those that were overwritten included.
#[derive(Clone, Copy, Debug, PartialEq, Eq)]
pub struct Made {
    pub directionless: usize,
}

/// The scratch lists of `create_tangents`: one place per point in `at`, one per halfedge in each other. They hold zeros afterwards.
#[derive(Clone, Debug)]
pub struct CreateScratch {
    pub fixed: Vec<u8>,
    pub flat: Vec<u8>,
    pub smooth: Vec<f64>,
    pub desired: Vec<f64>,
    pub at: Vec<usize>,
    pub link: Vec<usize>,
}

impl CreateScratch {
    /// For n halfedges and p points, with `x` in every place.
    pub fn new(n: usize, p: usize, x: u8) -> Self {
        let (f, u) = (f64::from(x), usize::from(x));
        CreateScratch { fixed: vec![x; n], flat: vec![x; n], smooth: vec![f; n], desired: vec![f; n], at: vec![u; p], link: vec![u; n] }
    }

    pub fn is_zero(&self) -> bool {
        self.fixed.iter().chain(&self.flat).all(|&x| x == 0)
            && self.smooth.iter().chain(&self.desired).all(|x| x.to_bits() == 0)
            && self.at.iter().chain(&self.link).all(|&x| x == 0)
    }
}

/// Making from sharp edges: the Rust's `create_tangents`. With `old` the tangents t hold the old ones.
#[allow(clippy::too_many_arguments)]
pub fn create_tangents(
    n: usize, p: usize, h: &[i32], pos: &[f64], normals: &[f64], face_normals: &[f64], refs: &[i32], entries: &[usize], smoothness: &[f64],
    old: bool, t: &mut [f64], scratch: &mut CreateScratch,
) -> Result<Made, Refused> {
    let mut answer = [0; 4];
    let s = scratch;
    // SAFETY: each pointer and length are those of one list; those that are written, t, the six scratch vectors and answer, overlap no other.
    unsafe {
        raw::tangents_create_tangents(
            n, p, h.as_ptr(), h.len(), pos.as_ptr(), pos.len(), normals.as_ptr(), normals.len(), face_normals.as_ptr(), face_normals.len(),
            refs.as_ptr(), refs.len(), entries.as_ptr(), entries.len(), smoothness.as_ptr(), smoothness.len(), usize::from(old), t.as_mut_ptr(), t.len(),
            s.fixed.as_mut_ptr(), s.fixed.len(), s.flat.as_mut_ptr(), s.flat.len(), s.smooth.as_mut_ptr(), s.smooth.len(),
            s.desired.as_mut_ptr(), s.desired.len(), s.at.as_mut_ptr(), s.at.len(), s.link.as_mut_ptr(), s.link.len(), answer.as_mut_ptr(), 4,
        );
    }
    outcome(answer).map(|[directionless, _]| Made { directionless })
}

/// The scratch lists of `create_tangents_from_normals`: one place per point in `first`, one per halfedge in each other. They hold zeros
/// afterwards.
#[derive(Clone, Debug)]
pub struct NormalsScratch {
    pub fixed: Vec<u8>,
    pub inside: Vec<u8>,
    pub current: Vec<f64>,
    pub desired: Vec<f64>,
    pub first: Vec<usize>,
}

impl NormalsScratch {
    /// For n halfedges and p points, with `x` in every place.
    pub fn new(n: usize, p: usize, x: u8) -> Self {
        let (f, u) = (f64::from(x), usize::from(x));
        NormalsScratch { fixed: vec![x; n], inside: vec![x; n], current: vec![f; n], desired: vec![f; n], first: vec![u; p] }
    }

    pub fn is_zero(&self) -> bool {
        self.fixed.iter().chain(&self.inside).all(|&x| x == 0)
            && self.current.iter().chain(&self.desired).all(|x| x.to_bits() == 0)
            && self.first.iter().all(|&x| x == 0)
    }
}

/// Making from normals: the Rust's `create_tangents_from_normals`. `rows` has three numbers per row, and each halfedge names its row. With
/// `old` the tangents t hold the old ones.
#[allow(clippy::too_many_arguments)]
pub fn create_tangents_from_normals(
    n: usize, p: usize, h: &[i32], pos: &[f64], normals: &[f64], face_normals: &[f64], refs: &[i32], rows: &[f64], old: bool,
    t: &mut [f64], scratch: &mut NormalsScratch,
) -> Result<Made, Refused> {
    let mut answer = [0; 4];
    let s = scratch;
    // SAFETY: each pointer and length are those of one list; those that are written, t, the five scratch vectors and answer, overlap no other.
    unsafe {
        raw::tangents_create_tangents_from_normals(
            n, p, h.as_ptr(), h.len(), pos.as_ptr(), pos.len(), normals.as_ptr(), normals.len(), face_normals.as_ptr(), face_normals.len(),
            refs.as_ptr(), refs.len(), rows.as_ptr(), rows.len(), usize::from(old), t.as_mut_ptr(), t.len(),
            s.fixed.as_mut_ptr(), s.fixed.len(), s.inside.as_mut_ptr(), s.inside.len(), s.current.as_mut_ptr(), s.current.len(),
            s.desired.as_mut_ptr(), s.desired.len(), s.first.as_mut_ptr(), s.first.len(), answer.as_mut_ptr(), 4,
        );
    }
    outcome(answer).map(|[directionless, _]| Made { directionless })
}

/// The counts of a mesh that was read.
#[derive(Clone, Copy, Debug, PartialEq, Eq)]
pub struct MeshCounts {
    pub halfedges: usize,
    pub points: usize,
}

/// Taking binary STL (docs/changes/05-stl.md): three numbers per point, four per halfedge and the stored normal of each triangle. The lists
/// need room for three points, three halfedges and one normal per triangle; places past the mesh stay as lent, all of them where the file is
/// refused. The call takes some 853,000 bytes of the stack.
pub fn read_stl(file: &[u8], pos: &mut [f64], h: &mut [i32], face_normals: &mut [f64]) -> Result<MeshCounts, Refused> {
    let mut answer = [0; 4];
    // SAFETY: each pointer and length are those of one list; those that are written, pos, h, face_normals and answer, overlap no other.
    // Where the stack is too small the system ends the program, before anything past it is written.
    unsafe {
        raw::tangents_read_stl(
            file.as_ptr(), file.len(), pos.as_mut_ptr(), pos.len(), h.as_mut_ptr(), h.len(),
            face_normals.as_mut_ptr(), face_normals.len(), answer.as_mut_ptr(), 4,
        );
    }
    outcome(answer).map(|[halfedges, points]| MeshCounts { halfedges, points })
}

/// A control point of a curve: x, y and z already times the weight, and the weight.
pub type Control = [f64; 4];

/// A point of a curve: where it is, and the direction there, the difference of the two points of the Rust's linear segment divided by its length.
/// The direction is of length 1 up to rounding, but zero where the difference is shorter than 1e-30, and also where it is finite and its squared
/// length overflows, from some 1.34e154 on. Where the difference is infinite or not a number, as for infinite control points, the direction has a
/// not-a-number.
#[derive(Clone, Copy, Debug, PartialEq)]
pub struct CurvePoint {
    pub position: [f64; 3],
    pub direction: [f64; 3],
}

/// Position and direction at a parameter, 0 to 1: `cubic_bezier_2_linear`, `bezier_point` and `bezier_tangent` of the Rust's src/interp_tri.rs.
pub fn curve_at(controls: &[Control; 4], x: f64) -> Result<CurvePoint, Refused> {
    let (controls, mut point, mut answer) = (controls.as_flattened(), [0.0; 6], [0; 4]);
    // SAFETY: each pointer and length are those of one list; those that are written, point and answer, overlap no other.
    unsafe {
        raw::tangents_curve_at(controls.as_ptr(), controls.len(), x, point.as_mut_ptr(), point.len(), answer.as_mut_ptr(), 4);
    }
    let [a, b, c, d, e, f] = point;
    outcome(answer).map(|_| CurvePoint { position: [a, b, c], direction: [d, e, f] })
}

/// 2 to 256 points along a curve, three numbers each: point i at the parameter i/(count - 1). The list stays as lent where the call is refused.
pub fn curve_points(controls: &[Control; 4], count: usize, points: &mut [f64]) -> Result<(), Refused> {
    let (controls, mut answer) = (controls.as_flattened(), [0; 4]);
    // SAFETY: each pointer and length are those of one list; those that are written, points and answer, overlap no other.
    unsafe {
        raw::tangents_curve_points(controls.as_ptr(), controls.len(), count, points.as_mut_ptr(), points.len(), answer.as_mut_ptr(), 4);
    }
    outcome(answer).map(|_| ())
}
