//! Times the unit and the unchanged Rust on the same mesh in the same run.
//!
//!     bench ORACLE MESH HALFEDGES REPEATS RUNS [KIND..]
//!
//! ORACLE is the timing build of the oracle (`./build.sh` in its folder prints the path of both builds). MESH is `torus`, or `mixed`: random small meshes
//! joined, with points of uneven valence, quads, creases, missing and strange normals. Each has at most so many halfedges. A run takes the least of so many
//! repeats, of the Rust and then of the unit; the table has the least of all runs, and of the runs' ratios the least, the median and the greatest.
//! `normals` has a row for each halfedge; `rows`, on the torus only, one for the halfedges that share a normal. `preview` has the mesh of `spread`, and the
//! Rust has no such call: it is timed beside the unit's own spreading, whose time stands in the Rust's column as `spread`. `clean` has the mesh of `crease`,
//! and the Rust lacks it too: its column has the time of the Rust's listing, as `crease`.
//! `stl` and `apart`, on the torus only, read an STL file: of that torus, and of triangles that share no corner, which is refused at the last question. The Rust
//! has no such call: its column has, as `maps`, a plain reader over two hash maps.
//! `curve` and `point` are the curves of the first edges of the mesh of `straighten`, at most 256: for each, a list of 256 points, and as many calls for one point
//! with its direction. The second column has the points, and a time is for each of them; the Rust's functions are those of src/interp_tri.rs, compiled here.
//! The unit asks its questions in every call; the Rust asks none.
//! The status is 0 after a whole run, 1 where it ends early, for a reason that stands on standard error, and 2 where the arguments are wrong.

#[path = "../interp_tri.rs"]
mod interp_tri;

use interp_tri::{bezier_point, bezier_tangent, cubic_bezier_2_linear, Vec4};
use std::collections::HashMap;
use std::ffi::{OsStr, OsString};
use std::path::Path;
use std::process::{Command, ExitCode};
use std::time::Instant;
use tangents_host::case::{blocks, Block};
use tangents_host::drawing;
use tangents_host::output::{print, say};
use tangents_host::*;

type Failure = Box<dyn std::error::Error>;

/// For each run the least time of the Rust, or of what stands in its column, and that of the unit.
type Times = Vec<(f64, f64)>;

/// ns per halfedge of the unit for an operation on a case, the least.
fn unit(c: &Block, op: &str, repeats: usize) -> Result<f64, Failure> {
    let (n, p) = c.counts();
    let (h, pos, normals, face_normals, fixed) = (c.halfedges(), c.floats("pos"), c.floats("vn"), c.floats("fn"), c.bytes("fl"));
    let lent = c.floats("tan");
    let (mut current, mut desired, mut bytes) = (vec![0.0; n], vec![0.0; n], vec![0; n]);
    let (mut listed, mut listed_smoothness) = (vec![0usize; n], vec![0.0; n]);
    let (refs, entries, smoothness) = (c.signed("ref"), c.numbers("sh"), c.floats("ss"));
    let rows = c.rows();
    let (mut scratch, mut scratch2) = (CreateScratch::new(n, p, 0), NormalsScratch::new(n, p, 0));
    let old = c.has("tan");
    let mut least = f64::MAX;
    for _ in 0..repeats {
        let mut t = lent.clone();
        t.resize(4 * n, 0.0);
        let start = Instant::now();
        match op {
            "straighten" => linearize_flat_tangents(n, p, &h, &pos, &mut t)?,
            "check" => drop(std::hint::black_box(valid_tangents(n, p, &h, &pos, &t)?)),
            "crease" => drop(sharpen_edges(n, p, &h, &face_normals, 60.0, 0.0, &mut listed, &mut listed_smoothness)?),
            "clean" => drop(sharpen_edges_clean(n, p, &h, &face_normals, 60.0, 0.0, &mut listed, &mut listed_smoothness)?),
            "spread" => drop(distribute_tangents(n, p, &h, &pos, &normals, &fixed, &mut t, &mut current, &mut desired)?),
            "preview" => drop(preview_tangents(n, p, &h, &pos, &normals, &fixed, &t, &mut bytes)?),
            "sharp" => drop(create_tangents(n, p, &h, &pos, &normals, &face_normals, &refs, &entries, &smoothness, old, &mut t, &mut scratch)?),
            "normals" => drop(create_tangents_from_normals(n, p, &h, &pos, &normals, &face_normals, &refs, &rows, old, &mut t, &mut scratch2)?),
            op => return Err(format!("the oracle answers a case of {op}, which is not timed").into()),
        }
        least = least.min(start.elapsed().as_nanos() as f64 / n as f64);
        std::hint::black_box((&t, &bytes));
    }
    Ok(least)
}

/// What is taken from an STL file: positions, halfedges and face normals as `read_stl` gives them.
#[derive(PartialEq)]
struct Taken {
    pos: Vec<f64>,
    h: Vec<i32>,
    face_normals: Vec<f64>,
}

/// The u32 at an offset of a file.
fn u32_at(file: &[u8], at: usize) -> u32 {
    u32::from_le_bytes([file[at], file[at + 1], file[at + 2], file[at + 3]])
}

/// Three f32 numbers at an offset, by their bits.
fn three_at(file: &[u8], at: usize) -> [u32; 3] {
    [0, 4, 8].map(|i| u32_at(file, at + i))
}

fn widened(three: [u32; 3]) -> [f64; 3] {
    three.map(|bits| f64::from(f32::from_bits(bits)))
}

/// The corners of a file's triangles, -0 taken as 0. Nothing where a length, a count or a corner is not as it should be.
fn corners(file: &[u8]) -> Option<Vec<[u32; 3]>> {
    if file.len() < 84 || u32_at(file, 80) > 21_845 || file.len() != 84 + 50 * u32_at(file, 80) as usize {
        return None;
    }
    let mut corners = Vec::with_capacity(file.len() / 50 * 3);
    for triangle in file[84..].chunks_exact(50) {
        let three = [12, 24, 36].map(|at| three_at(triangle, at).map(|bits| if bits == 1 << 31 { 0 } else { bits }));
        let [a, b, c] = three;
        if a == b || b == c || c == a || three.iter().flatten().any(|&bits| !f32::from_bits(bits).is_finite()) {
            return None;
        }
        corners.extend(three);
    }
    Some(corners)
}

/// The plain reader that `read_stl` is timed beside. Nothing where the file is refused.
fn taken_by_maps(file: &[u8]) -> Option<Taken> {
    let corners = corners(file)?;
    let (mut pos, mut numbers) = (Vec::new(), HashMap::new());
    let number = |corner: &[u32; 3]| {
        *numbers.entry(*corner).or_insert_with(|| {
            pos.extend(widened(*corner));
            pos.len() as i32 / 3 - 1
        })
    };
    let starts: Vec<i32> = corners.iter().map(number).collect();
    let h = paired_by_map(&starts)?;
    let face_normals = file[84..].chunks_exact(50).flat_map(|triangle| widened(three_at(triangle, 0))).collect();
    Some(Taken { pos, h, face_normals })
}

/// Start, end, pair and row of each halfedge, by where it starts. Nothing where a directed edge occurs twice or has no reverse.
fn paired_by_map(starts: &[i32]) -> Option<Vec<i32>> {
    let mut edges = HashMap::new();
    let end = |e: usize| starts[if e % 3 == 2 { e - 2 } else { e + 1 }];
    for (e, &start) in starts.iter().enumerate() {
        if edges.insert((start, end(e)), e as i32).is_some() {
            return None;
        }
    }
    let mut h = Vec::with_capacity(4 * starts.len());
    for (e, &start) in starts.iter().enumerate() {
        h.extend([start, end(e), *edges.get(&(end(e), start))?, e as i32]);
    }
    Some(h)
}

fn taken_by_unit(file: &[u8], lists: &mut Taken) -> Option<MeshCounts> {
    read_stl(file, &mut lists.pos, &mut lists.h, &mut lists.face_normals).ok()
}

/// The least time of a job, in ns for each of n halfedges.
fn least<T>(n: usize, repeats: usize, mut job: impl FnMut() -> T) -> f64 {
    let times = (0..repeats).map(|_| {
        let start = Instant::now();
        std::hint::black_box(job());
        start.elapsed().as_nanos() as f64 / n as f64
    });
    times.fold(f64::MAX, f64::min)
}

/// The halfedges of a file, and the times of the plain reader and of the unit. Both have to take the same from it.
fn file_times(file: &[u8], repeats: usize, runs: usize) -> Result<(usize, Times), Failure> {
    let n = file.len().saturating_sub(84) / 50 * 3;
    let mut lists = Taken { pos: vec![0.0; 3 * n], h: vec![0; 4 * n], face_normals: vec![0.0; n] };
    let times = (0..runs).map(|_| (least(n, repeats, || taken_by_maps(file)), least(n, repeats, || taken_by_unit(file, &mut lists)))).collect();
    let taken = taken_by_unit(file, &mut lists).map(|counts| {
        lists.pos.truncate(3 * counts.points);
        lists
    });
    if taken != taken_by_maps(file) {
        return Err("unit and plain reader differ".into());
    }
    Ok((n, times))
}

/// The points of a list: the most that the call gives.
const POINTS: usize = 256;

/// The most curves that are timed.
const CURVES: usize = 256;

/// The curves of the first edges of a mesh.
fn curves(c: &Block) -> Vec<[Control; 4]> {
    let (he, pos, tan) = (c.signed("he"), c.floats("pos"), c.floats("tan"));
    let point = |v: i32| [0, 1, 2].map(|k| pos[3 * v as usize + k]);
    let tangent = |e: usize| [0, 1, 2, 3].map(|k| tan[4 * e + k]);
    let curve = |(e, numbers): (usize, &[i32])| drawing::controls([point(numbers[0]), point(numbers[1])], [tangent(e), tangent(numbers[2] as usize)]);
    he.chunks_exact(3).take(CURVES).enumerate().map(curve).collect()
}

fn parameter(i: usize) -> f64 {
    i as f64 / (POINTS - 1) as f64
}

fn by_rust(controls: &[Control; 4]) -> [Vec4; 4] {
    controls.map(|[x, y, z, w]| Vec4::new(x, y, z, w))
}

fn list_by_rust(controls: &[Control; 4], list: &mut [f64]) {
    let [p0, p1, p2, p3] = by_rust(controls);
    for (i, place) in list.chunks_exact_mut(3).enumerate() {
        let x = parameter(i);
        let v = bezier_point(&cubic_bezier_2_linear(p0, p1, p2, p3, x), x);
        place.copy_from_slice(&[v.x, v.y, v.z]);
    }
}

fn list_by_unit(controls: &[Control; 4], list: &mut [f64]) {
    curve_points(controls, POINTS, list).expect("accepted");
}

fn points_by_rust(controls: &[Control; 4], list: &mut [f64]) {
    let [p0, p1, p2, p3] = by_rust(controls);
    for (i, place) in list.chunks_exact_mut(6).enumerate() {
        let x = parameter(i);
        let points = cubic_bezier_2_linear(p0, p1, p2, p3, x);
        let (v, d) = (bezier_point(&points, x), bezier_tangent(&points));
        place.copy_from_slice(&[v.x, v.y, v.z, d.x, d.y, d.z]);
    }
}

fn points_by_unit(controls: &[Control; 4], list: &mut [f64]) {
    for (i, place) in list.chunks_exact_mut(6).enumerate() {
        let point = curve_at(controls, parameter(i)).expect("accepted");
        place.copy_from_slice([point.position, point.direction].as_flattened());
    }
}

/// The bits of the numbers, one pattern for every not-a-number.
fn bits(list: &[f64]) -> Vec<u64> {
    list.iter().map(|x| if x.is_nan() { f64::NAN.to_bits() } else { x.to_bits() }).collect()
}

/// The points of all curves, and the times of the Rust and of the unit. Both have to give the same.
fn curve_times(kind: &str, case: &Block, repeats: usize, runs: usize) -> Result<(usize, Times), Failure> {
    type Job = fn(&[Control; 4], &mut [f64]);
    let (size, by_rust, by_unit): (usize, Job, Job) = match kind {
        "curve" => (3, list_by_rust, list_by_unit),
        _ => (6, points_by_rust, points_by_unit),
    };
    let curves = curves(case);
    let n = POINTS * curves.len();
    let all = |job: Job, lists: &mut [f64]| curves.iter().zip(lists.chunks_exact_mut(size * POINTS)).for_each(|(curve, list)| job(curve, list));
    let (mut of_rust, mut of_unit) = (vec![0.0; size * n], vec![1.0; size * n]);
    all(by_rust, &mut of_rust);
    all(by_unit, &mut of_unit);
    if bits(&of_rust) != bits(&of_unit) {
        return Err("unit and Rust differ".into());
    }
    let time = |job, lists: &mut [f64]| least(n, repeats, || all(job, lists));
    let times = (0..runs).map(|_| (time(by_rust, &mut of_rust), time(by_unit, &mut of_unit))).collect();
    Ok((n, times))
}

fn run(oracle: &OsStr, words: &[&OsStr]) -> Result<String, Failure> {
    let name = Path::new(oracle).display();
    let out = Command::new(oracle).args(words).output().map_err(|e| format!("{name}: {e}"))?;
    if !out.status.success() {
        return Err(format!("{name} ended with {}", out.status).into());
    }
    Ok(String::from_utf8(out.stdout)?)
}

/// The number after `least` in the oracle's line.
fn rust(line: &str) -> Result<f64, Failure> {
    let mut words = line.split([' ', ',']).skip_while(|w| *w != "least");
    words.nth(1).and_then(|w| w.parse().ok()).ok_or_else(|| format!("the oracle answers no timing: {line}").into())
}

/// The halfedges of a mesh, and the times of the Rust (for a preview, of the unit's spreading) and of the unit.
fn mesh_times(oracle: &OsStr, kind: &str, text: &str, case: &Block, repeats: usize, runs: usize) -> Result<(usize, Times), Failure> {
    let file = std::env::temp_dir().join(format!("tangents-bench-{}.txt", std::process::id()));
    std::fs::write(&file, text).map_err(|e| format!("{}: {e}", file.display()))?;
    let beside = || match kind {
        "preview" => unit(case, "spread", repeats),
        _ => rust(&run(oracle, &["bench".as_ref(), file.as_os_str(), repeats.to_string().as_ref()])?),
    };
    let op = if matches!(kind, "preview" | "clean") { kind } else { case.op() };
    let times = (0..runs).map(|_| Ok((beside()?, unit(case, op, repeats)?))).collect::<Result<_, Failure>>();
    let _ = std::fs::remove_file(&file);
    Ok((case.counts().0, times?))
}

const KINDS: [&str; 13] =
    ["straighten", "check", "crease", "clean", "spread", "preview", "sharp", "normals", "rows", "stl", "apart", "curve", "point"];

const TORUS_ONLY: [&str; 3] = ["rows", "stl", "apart"];

struct Arguments {
    oracle: OsString,
    /// The oracle's word for the mesh.
    mesh: &'static str,
    halfedges: usize,
    repeats: usize,
    runs: usize,
    kinds: Vec<&'static str>,
}

impl Arguments {
    /// The arguments, or `None` where they are wrong.
    fn of(words: &[OsString]) -> Option<Arguments> {
        let (oracle, words) = words.split_first()?;
        let words: Vec<&str> = words.iter().map(|word| word.to_str()).collect::<Option<_>>()?;
        let ([mesh, numbers @ ..], kinds) = words.split_first_chunk::<4>()?;
        let (mesh, own, all) = match *mesh {
            "torus" => ("big", &[][..], &KINDS[..]),
            "mixed" => ("mixed", &TORUS_ONLY[..], &KINDS[..8]),
            _ => return None,
        };
        let kind = |word: &&str| KINDS.into_iter().find(|kind| kind == word && !own.contains(kind));
        let kinds = kinds.iter().map(kind).collect::<Option<Vec<_>>>()?;
        let kinds = if kinds.is_empty() { all.to_vec() } else { kinds };
        let number = |word: &str| word.parse().ok().filter(|&number| number > 0);
        let [halfedges, repeats, runs] = numbers.map(number);
        Some(Arguments { oracle: oracle.clone(), mesh, halfedges: halfedges?, repeats: repeats?, runs: runs?, kinds })
    }

    /// The line of a kind.
    fn line(&self, kind: &str) -> Result<String, Failure> {
        let &Arguments { ref oracle, repeats, runs, .. } = self;
        let (of, mesh) = match kind {
            "preview" => ("spread ", "spread"),
            "clean" => ("crease ", "crease"),
            "stl" | "apart" => ("maps ", kind),
            "curve" | "point" => ("", "straighten"),
            _ => ("", kind),
        };
        let text = run(oracle, &[self.mesh, mesh, &self.halfedges.to_string(), "1"].map(OsStr::new))?;
        let case = blocks(text.as_bytes()).next().ok_or("the oracle gives no case")?;
        let (n, times) = match kind {
            "stl" | "apart" => file_times(&case.file(), repeats, runs)?,
            "curve" | "point" => curve_times(kind, &case, repeats, runs)?,
            _ => mesh_times(oracle, kind, &text, &case, repeats, runs)?,
        };
        if n == 0 {
            return Err(format!("the oracle makes no mesh of {} halfedges", self.halfedges).into());
        }
        let mut ratios: Vec<f64> = times.iter().map(|(r, u)| u / r).collect();
        ratios.sort_by(f64::total_cmp);
        let (r, u) = times.iter().fold((f64::MAX, f64::MAX), |(r, u), t| (r.min(t.0), u.min(t.1)));
        Ok(format!("| {kind} | {n} | {u:.2} | {of}{r:.2} | {:.2} | {:.2} to {:.2} |\n", ratios[runs / 2], ratios[0], ratios[runs - 1]))
    }

    fn print_table(&self) -> Result<(), Failure> {
        print("| call | halfedges | unit | Rust | ratio | least to greatest |\n|---|---|---|---|---|---|\n")?;
        for kind in &self.kinds {
            print(self.line(kind)?)?;
        }
        Ok(())
    }
}

fn main() -> ExitCode {
    let words: Vec<OsString> = std::env::args_os().skip(1).collect();
    let Some(arguments) = Arguments::of(&words) else {
        say(format_args!(
            "bench ORACLE MESH HALFEDGES REPEATS RUNS [KIND..], where MESH is torus or mixed, KIND is {} ({} on the torus only), and the others are above 0",
            KINDS.join(", "),
            TORUS_ONLY.join(", ")
        ));
        return ExitCode::from(2);
    };
    match arguments.print_table() {
        Ok(()) => ExitCode::SUCCESS,
        Err(failure) => {
            say(failure);
            ExitCode::from(1)
        }
    }
}
