//! The oracle's text format: cases, answers, and the unit's answer to a case, written as the oracle writes it.

use crate::{create_tangents, create_tangents_from_normals, curve_at, curve_points, distribute_tangents, linearize_flat_tangents, preview_tangents};
use crate::{read_stl, sharpen_edges, sharpen_edges_clean, valid_tangents, Control, Counts, CreateScratch, Made, NormalsScratch, Refused};
use std::fmt::{Display, Write as _};
use std::hint::black_box;
use std::io::BufRead;

/// A case, or an answer: its text, from the line `case` or `result` to the line `end`. Or a leaf call, or the answer to one: a line outside these.
pub struct Block {
    text: String,
}

impl Block {
    pub fn text(&self) -> &str {
        &self.text
    }

    fn is_line(&self) -> bool {
        !has_lines(&self.text)
    }

    /// Operation and number, as in `spread 12`; for a line, all of it.
    pub fn name(&self) -> &str {
        let first = self.text.lines().next().unwrap_or("");
        if self.is_line() { first } else { first.split_once(' ').map_or("", |(_, name)| name) }
    }

    /// Can this be the answer to a case? That to a leaf call does not name it.
    pub fn answers(&self, case: &Block) -> bool {
        self.is_line() == case.is_line() && (self.is_line() || self.name() == case.name())
    }

    pub fn op(&self) -> &str {
        self.name().split(' ').next().unwrap_or("")
    }

    pub fn has_line(&self, line: &str) -> bool {
        self.text.lines().any(|l| l == line)
    }

    /// The rest of the line that begins with the word.
    fn after(&self, word: &str) -> Option<&str> {
        self.text.lines().map(|l| l.split_once(' ').unwrap_or((l, ""))).find(|(first, _)| *first == word).map(|(_, rest)| rest)
    }

    fn words(&self, name: &str) -> impl Iterator<Item = &str> {
        self.after(name).unwrap_or("").split_whitespace()
    }

    pub fn has(&self, name: &str) -> bool {
        self.after(name).is_some()
    }

    pub fn floats(&self, name: &str) -> Vec<f64> {
        self.words(name).map(float).collect()
    }

    pub fn signed(&self, name: &str) -> Vec<i32> {
        self.words(name).map(|w| w.parse().expect("an i32")).collect()
    }

    pub fn bytes(&self, name: &str) -> Vec<u8> {
        self.words(name).map(|w| w.parse().expect("a byte")).collect()
    }

    pub fn numbers(&self, name: &str) -> Vec<usize> {
        self.words(name).map(|w| w.parse().expect("a number")).collect()
    }

    /// The counts of halfedges and of points.
    pub fn counts(&self) -> (usize, usize) {
        let c = self.numbers("counts");
        (c[1], c[0])
    }

    /// The length of a list that is written, with one place for each of n halfedges where the case has no line `room`. The oracle damages an empty mesh's
    /// room to -1: a length that no list has, as n + 1 is none that the mesh calls for.
    fn room(&self, n: usize) -> usize {
        self.words("room").next().map_or(n.min(1 << 20), |w| w.parse().unwrap_or(n + 1))
    }

    /// The row of a halfedge where the case has no line `row`: its own number for making from normals, else one that would show if it were read.
    fn row_of(&self, e: usize) -> i32 {
        let own = e as i32;
        if self.op() == "normals" { own } else { [-1, i32::MIN, i32::MAX, 0, own + 1][e % 5] }
    }

    /// The halfedges as the unit is lent them, four numbers each: those of the line `he`, and the row. Where `he` ends within a halfedge, or there are not
    /// as many rows as halfedges, the oracle answers 2; the list then ends within a halfedge too.
    pub fn halfedges(&self) -> Vec<i32> {
        let he = self.signed("he");
        let n = he.len() / 3;
        let rows = if self.has("row") { self.signed("row") } else { (0..n).map(|e| self.row_of(e)).collect() };
        let mut h = Vec::with_capacity(4 * n + 3);
        for (e, numbers) in he.chunks_exact(3).enumerate() {
            h.extend(numbers);
            h.push(rows.get(e).copied().unwrap_or(0));
        }
        h.extend(&he[3 * n..]);
        if rows.len() != n {
            h.push(0);
        }
        h
    }

    /// The row list of making from normals: the line `prop`, or `nrm`, where each halfedge's row is its own number. Where `nrm` has not three numbers per
    /// halfedge, the oracle answers 2; the list then ends within a row.
    pub fn rows(&self) -> Vec<f64> {
        if self.has("prop") {
            return self.floats("prop");
        }
        let mut rows = self.floats("nrm");
        let (n, _) = self.counts();
        if rows.len() != 3 * n && rows.len() % 3 == 0 {
            rows.push(1.0);
        }
        rows
    }

    /// The bytes of the file that the case holds.
    pub fn file(&self) -> Vec<u8> {
        let digits = self.after("bytes").unwrap_or("").as_bytes();
        let byte = |two: &[u8]| std::str::from_utf8(two).ok().and_then(|two| u8::from_str_radix(two, 16).ok());
        digits.chunks(2).map(|two| byte(two).expect("a byte")).collect()
    }

    /// Room for points, halfedges and normals, in whole ones; where the case does not say, it is enough for the triangles of a file of so many bytes. Below 0,
    /// which the oracle does not make here, it would be none.
    fn file_room(&self, bytes: usize) -> [usize; 3] {
        let triangles = bytes.saturating_sub(84) / 50;
        match self.signed("room")[..] {
            [points, halfedges, normals] => [points, halfedges, normals].map(|room| usize::try_from(room).unwrap_or(0)),
            _ => [3 * triangles, 3 * triangles, triangles],
        }
    }
}

/// Is a text that begins so one of several lines? Else it is a leaf call, or the answer to one.
fn has_lines(text: &str) -> bool {
    text.starts_with("case ") || text.starts_with("result ")
}

/// The cases, or the answers, of a text, read one at a time. One that is cut off at the text's end is left out, and so are comments and empty lines between them.
pub fn blocks(mut source: impl BufRead) -> impl Iterator<Item = Block> {
    std::iter::from_fn(move || {
        let mut text = String::new();
        while source.read_line(&mut text).expect("text") > 0 {
            if text == "\n" || text.starts_with('#') {
                text.clear();
            } else if text.ends_with(if has_lines(&text) { "\nend\n" } else { "\n" }) {
                return Some(Block { text });
            }
        }
        None
    })
}

fn float(word: &str) -> f64 {
    f64::from_bits(u64::from_str_radix(word, 16).expect("bits"))
}

fn hex(name: &str, xs: &[f64]) -> String {
    let mut s = String::from(name);
    for x in xs {
        let bits = if x.is_nan() { 0x7ff8_0000_0000_0000 } else { x.to_bits() };
        write!(s, " {bits:016x}").unwrap();
    }
    s
}

/// The answer to a leaf call, which does not name it.
fn numbers_line(xs: &[f64]) -> Vec<String> {
    vec![hex("", xs).trim_start().to_string()]
}

fn decimal(name: &str, xs: &[impl Display]) -> String {
    let mut s = String::from(name);
    for x in xs {
        write!(s, " {x}").unwrap();
    }
    s
}

/// Whether a making has old tangents, and the list that it writes: the old ones, or something else of their length.
fn old_tangents(c: &Block, n: usize, t: Vec<f64>) -> (bool, Vec<f64>) {
    if c.has("tan") { (true, t) } else { (false, vec![-1.0; 4 * n.min(1 << 20)]) }
}

/// The lines of a making. The count is answered only where the case asks for it, as the oracle does.
fn made_lines(c: &Block, t: &[f64], made: Made) -> Vec<String> {
    let mut lines = vec![hex("tan", t)];
    if c.has("count") {
        lines.push(format!("directionless {}", made.directionless));
    }
    lines
}

fn same_bits(a: &[f64], b: &[f64]) -> bool {
    a.iter().map(|x| x.to_bits()).eq(b.iter().map(|x| x.to_bits()))
}

/// A signaling not-a-number: it keeps its bits where it is copied, and arithmetic never gives one.
const SIGNALING: u64 = 0x7ff0_0000_0000_0001;

/// The tangents with signaling not-a-numbers in each that has no direction. Spreading takes the same steps over them: the direction of either is zero.
fn signaling(t: &[f64]) -> Vec<f64> {
    let mut t = t.to_vec();
    for v in t.chunks_exact_mut(4) {
        let square = v[0] * v[0] + v[1] * v[1] + v[2] * v[2];
        if square <= 0.0 || !square.is_finite() {
            v[..3].fill(f64::from_bits(SIGNALING));
        }
    }
    t
}

/// A crease listing. Places past the entries, and all of them where the call is refused, have to be as they were lent.
fn creases(c: &Block, h: &[i32]) -> Result<Vec<String>, Refused> {
    let (n, p) = c.counts();
    let (limits, room) = (c.floats("ang"), c.room(n));
    let (mut entries, mut smoothness) = (vec![usize::MAX; room], vec![f64::from_bits(SIGNALING); room]);
    let list = if c.op() == "clean" { sharpen_edges_clean } else { sharpen_edges };
    let answer = list(n, p, h, &c.floats("fn"), limits[0], limits[1], &mut entries, &mut smoothness);
    let count = answer.map_or(0, |listed| listed.entries);
    assert!(entries[count..].iter().all(|&e| e == usize::MAX), "a place past the entries, or of a refused call, was written");
    assert!(smoothness[count..].iter().all(|x| x.to_bits() == SIGNALING), "a smoothness past the entries, or of a refused call, was written");
    answer.map(|listed| {
        let mut lines = vec![decimal("list", &entries[..count]), hex("smooth", &smoothness[..count])];
        // the tally of the oracle's `crease` counts the edges of the Rust's listing
        if c.op() != "crease" {
            lines.push(format!("tally {}", listed.tally));
        }
        lines
    })
}

/// Do a preview's answer and bytes agree with the unit's own spreading, which was lent these tangents and left them as `after`? Both answers have to be equal;
/// each byte 0 or 1, with as many of 1 as tangents were turned; the byte 1 where a tangent's bits changed; and a signaling not-a-number changed where the byte
/// is 1, as a write always changes it.
///
/// Spreading writes no tangent twice, so this leaves one fault open: a 0 where a tangent is written with the bits that it had, together with a 1 where one that
/// has a direction is not written. The oracle's bytes, made of its writes, show that too.
fn agrees(bytes: &[u8], answer: Result<Counts, Refused>, lent: &[f64], after: &[f64], spreading: Result<Counts, Refused>) -> bool {
    let Ok(counts) = answer else { return answer == spreading && same_bits(lent, after) };
    let tangents = lent.chunks_exact(4).zip(after.chunks_exact(4));
    answer == spreading
        && bytes.iter().filter(|&&b| b == 1).count() == counts.turned
        && bytes.iter().zip(tangents).all(|(&byte, (old, new))| match byte {
            0 => same_bits(old, new),
            1 => old[0].to_bits() != SIGNALING || !same_bits(old, new),
            _ => false,
        })
}

/// The preview, held against the unit's own spreading of two copies: of the tangents, and of these with signaling not-a-numbers.
fn preview(c: &Block, h: &[i32], pos: &[f64], t: &[f64]) -> Result<Vec<String>, Refused> {
    let (n, p) = c.counts();
    let (normals, fixed, room) = (c.floats("vn"), c.bytes("fl"), c.room(n));
    let mut bytes = vec![7; room];
    let answer = preview_tangents(n, p, h, pos, &normals, &fixed, t, &mut bytes);
    // read anew, for the compiler takes it that nothing is written behind a shared slice
    assert!(same_bits(black_box(t), &c.floats("tan")), "a preview wrote tangents");
    assert!(answer.is_ok() || bytes.iter().all(|&b| b == 7), "a refused preview wrote bytes");
    for lent in [t.to_vec(), signaling(t)] {
        // of the bytes' length, so that question 2 is answered alike
        let (mut after, mut current, mut desired) = (lent.clone(), vec![f64::NAN; room], vec![1.5; room]);
        let spreading = distribute_tangents(n, p, h, pos, &normals, &fixed, &mut after, &mut current, &mut desired);
        if !agrees(&bytes, answer, &lent, &after, spreading) {
            return Ok(vec![format!("spreading disagrees: {spreading:?}")]);
        }
    }
    answer.map(|k| vec![decimal("bytes", &bytes), format!("looked {} turned {}", k.looked, k.turned)])
}

/// Lists lent for an STL file. Each place has a number of its own, and one that is never read from a file.
#[derive(Clone)]
struct FileLists {
    pos: Vec<f64>,
    h: Vec<i32>,
    face_normals: Vec<f64>,
}

impl FileLists {
    /// For so many points, halfedges and triangles, with part of a further one, whose size goes by `more`.
    fn new([points, halfedges, triangles]: [usize; 3], more: usize) -> Self {
        let floats = |n: usize| (0..n as u64).map(|i| f64::from_bits(f64::MAX.to_bits() - i)).collect();
        let numbers = |n: usize| (0..n as i32).map(|i| !i).collect();
        FileLists { pos: floats(3 * points + more % 3), h: numbers(4 * halfedges + more % 4), face_normals: floats(3 * triangles + more % 3) }
    }

    /// Are the places from these on the same in both?
    fn same_from(&self, other: &Self, [pos, h, face_normals]: [usize; 3]) -> bool {
        same_bits(&self.pos[pos..], &other.pos[pos..])
            && self.h[h..] == other.h[h..]
            && same_bits(&self.face_normals[face_normals..], &other.face_normals[face_normals..])
    }
}

/// The reading of an STL file. Places past the mesh, and all of them where the file is refused, have to be as they were lent.
fn stl(c: &Block) -> Result<Vec<String>, Refused> {
    let file = c.file();
    let lent = FileLists::new(c.file_room(file.len()), file.len() / 50);
    let mut lists = lent.clone();
    let answer = read_stl(&file, &mut lists.pos, &mut lists.h, &mut lists.face_normals);
    let written = answer.map_or([0; 3], |counts| [3 * counts.points, 4 * counts.halfedges, counts.halfedges]);
    assert!(lists.same_from(&lent, written), "a place past the mesh, or of a refused file, was written");
    let [pos, h, face_normals] = written;
    answer.map(|counts| {
        vec![
            format!("counts {} {}", counts.points, counts.halfedges),
            hex("pos", &lists.pos[..pos]),
            decimal("he4", &lists.h[..h]),
            hex("fn", &lists.face_normals[..face_normals]),
        ]
    })
}

/// The control points of a leaf call, and the words after them.
fn curve_words(c: &Block) -> ([Control; 4], Vec<&str>) {
    let mut words = c.words(c.op());
    let controls = std::array::from_fn(|_| std::array::from_fn(|_| float(words.next().expect("four control points"))));
    (controls, words.collect())
}

/// A point of a curve, the direction after it.
fn curve(c: &Block) -> Result<Vec<String>, Refused> {
    let (controls, words) = curve_words(c);
    let answer = curve_at(&controls, float(words.first().expect("a parameter")));
    answer.map(|point| numbers_line(&[point.position, point.direction].concat()))
}

/// Points along a curve. Each place of the list has a number of its own before the call, which a refused one has to leave. Where the room is not said, it is that
/// of the points. A list of more places than the oracle's count of 65,536 takes is cut: that count is wrong in any case.
fn points(c: &Block) -> Result<Vec<String>, Refused> {
    let (controls, words) = curve_words(c);
    let mut numbers = words.iter().map(|w| w.parse::<usize>().expect("a number"));
    let count = numbers.next().expect("a count");
    let room = numbers.next().unwrap_or_else(|| count.saturating_mul(3)).min(1 << 18);
    let lent: Vec<f64> = (0..room as u64).map(|i| f64::from_bits(SIGNALING + i)).collect();
    let mut list = lent.clone();
    let answer = curve_points(&controls, count, &mut list);
    assert!(answer.is_ok() || same_bits(&list, &lent), "a place of a refused call was written");
    answer.map(|()| numbers_line(&list))
}

/// The unit's answer to a case, line by line as the oracle writes it, or `None` for an operation that the unit has no call for.
pub fn answer(c: &Block) -> Option<Result<Vec<String>, Refused>> {
    match c.op() {
        "stl" => return Some(stl(c)),
        "curve" => return Some(curve(c)),
        "curvepoints" => return Some(points(c)),
        _ if c.is_line() => return None,
        _ => {}
    }
    let (n, p) = c.counts();
    let (h, pos) = (c.halfedges(), c.floats("pos"));
    let mut t = c.floats("tan");
    Some(match c.op() {
        "straighten" => linearize_flat_tangents(n, p, &h, &pos, &mut t).map(|()| vec![hex("tan", &t)]),
        "check" => valid_tangents(n, p, &h, &pos, &t).map(|v| vec![format!("valid {}", v as u8)]),
        "crease" | "crease2" | "clean" => creases(c, &h),
        "spread" => {
            // the scratch is handed in full, and has to come back all zeros
            let (mut current, mut desired) = (vec![f64::NAN; n.min(1 << 20)], vec![1.5; n.min(1 << 20)]);
            distribute_tangents(n, p, &h, &pos, &c.floats("vn"), &c.bytes("fl"), &mut t, &mut current, &mut desired).map(|k| {
                assert!(current.iter().chain(&desired).all(|x| x.to_bits() == 0), "scratch is left");
                vec![hex("tan", &t), format!("looked {} turned {}", k.looked, k.turned)]
            })
        }
        "preview" => preview(c, &h, &pos, &t),
        "sharp" => {
            let (old, mut t) = old_tangents(c, n, t);
            let mut scratch = CreateScratch::new(n.min(1 << 20), p.min(1 << 20), 7);
            create_tangents(
                n, p, &h, &pos, &c.floats("vn"), &c.floats("fn"), &c.signed("ref"), &c.numbers("sh"), &c.floats("ss"), old, &mut t, &mut scratch,
            )
            .map(|made| {
                assert!(scratch.is_zero(), "scratch is left");
                made_lines(c, &t, made)
            })
        }
        "normals" => {
            let (old, mut t) = old_tangents(c, n, t);
            let mut scratch = NormalsScratch::new(n.min(1 << 20), p.min(1 << 20), 7);
            create_tangents_from_normals(
                n, p, &h, &pos, &c.floats("vn"), &c.floats("fn"), &c.signed("ref"), &c.rows(), old, &mut t, &mut scratch,
            )
            .map(|made| {
                assert!(scratch.is_zero(), "scratch is left");
                made_lines(c, &t, made)
            })
        }
        _ => return None,
    })
}
