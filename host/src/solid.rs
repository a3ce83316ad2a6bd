//! A binary STL file as a solid: the mesh that the unit takes from it, and what the makings are lent beside a mesh, which the unit leaves to its caller.
//!
//! The normal of a triangle is the stored one if its length is 1, to a thousandth; where that is zero, not finite or of another length, it is worked out
//! from the corners, and is zero where these lie on one line: such a triangle is called a sliver here. Triangles that share an edge and lie in one plane are one
//! face. The normal of a point is the sum of those of its triangles, each times the angle that the triangle has there, scaled to length 1.

use crate::{create_tangents, read_stl, sharpen_edges, sharpen_edges_clean, CreateScratch, Listed, Made, MeshCounts, Refused};
use std::fmt;
use std::io;
use std::path::Path;

pub mod arguments;

pub type Vector = [f64; 3];

/// A mesh, as the unit's calls are lent it.
pub struct Mesh {
    pub counts: MeshCounts,
    /// Start, end, pair and row of each halfedge.
    pub h: Vec<i32>,
    pub pos: Vec<f64>,
}

/// A mesh, and its caller's part.
pub struct Solid {
    pub mesh: Mesh,
    pub face_normals: Vec<f64>,
    /// How many of the face normals are not the stored ones.
    pub replaced: usize,
    /// The face reference of each triangle: mesh 1, and the face's number twice.
    pub refs: Vec<i32>,
    pub faces: usize,
    pub normals: Vec<f64>,
}

/// A crease listing of a solid: each entry's halfedge and smoothness, and the counts.
pub struct Creases {
    pub entries: Vec<usize>,
    pub smoothness: Vec<f64>,
    pub listed: Listed,
}

impl Creases {
    /// How many of the listed edges are creases only by a sliver. The clean listing has none.
    pub fn by_slivers(&self) -> usize {
        self.listed.entries / 2 - self.listed.tally
    }
}

/// Which edges are listed.
#[derive(Clone, Copy, Debug, PartialEq, Eq)]
pub enum Rule {
    Ported,
    /// Without those at a sliver.
    Clean,
}

/// Why a file gives no solid.
#[derive(Debug)]
pub enum Failure {
    Unread(io::Error),
    /// It begins as an ASCII STL file does, and has not the length of a binary one.
    Ascii,
    Refused(Refused),
}

impl fmt::Display for Failure {
    fn fmt(&self, f: &mut fmt::Formatter) -> fmt::Result {
        match self {
            Failure::Unread(why) => write!(f, "the file cannot be read: {why}"),
            Failure::Ascii => f.write_str("the file looks like ASCII STL: it begins with `solid`, and has not the length of binary STL, which is what is read"),
            Failure::Refused(refused) => refused.fmt(f),
        }
    }
}

impl std::error::Error for Failure {}

impl From<io::Error> for Failure {
    fn from(why: io::Error) -> Self {
        Failure::Unread(why)
    }
}

impl From<Refused> for Failure {
    fn from(refused: Refused) -> Self {
        Failure::Refused(refused)
    }
}

impl Solid {
    pub fn read(path: impl AsRef<Path>) -> Result<Solid, Failure> {
        let bytes = std::fs::read(path)?;
        Solid::of_bytes(&bytes).map_err(|refused| match refused.number {
            30 if bytes.starts_with(b"solid") && !has_binary_length(&bytes) => Failure::Ascii,
            _ => refused.into(),
        })
    }

    pub fn of_bytes(bytes: &[u8]) -> Result<Solid, Refused> {
        let (mesh, stored) = Mesh::of_bytes(bytes)?;
        let outward: Vec<Vector> = (0..mesh.triangles()).map(|t| mesh.outward(t)).collect();
        let (face_normals, replaced) = face_normals(stored, &outward);
        let (refs, faces) = mesh.faces(&outward);
        let normals = mesh.point_normals(&face_normals);
        Ok(Solid { mesh, face_normals, replaced, refs, faces, normals })
    }

    /// The edges whose triangles' normals differ by more than the angle, in degrees, with smoothness 0. The normal zero is at ninety degrees to any other.
    pub fn creases(&self, angle: f64, rule: Rule) -> Result<Creases, Refused> {
        let MeshCounts { halfedges: n, points: p } = self.mesh.counts;
        let (mut entries, mut smoothness) = (vec![0; n], vec![0.0; n]);
        let list = if rule == Rule::Clean { sharpen_edges_clean } else { sharpen_edges };
        let listed = list(n, p, &self.mesh.h, &self.face_normals, angle, 0.0, &mut entries, &mut smoothness)?;
        entries.truncate(listed.entries);
        smoothness.truncate(listed.entries);
        Ok(Creases { entries, smoothness, listed })
    }

    /// The tangents, four numbers per halfedge, by making from sharp edges.
    pub fn tangents(&self, creases: &Creases) -> Result<(Vec<f64>, Made), Refused> {
        let MeshCounts { halfedges: n, points: p } = self.mesh.counts;
        let mut tangents = vec![0.0; 4 * n];
        let made = create_tangents(
            n, p, &self.mesh.h, &self.mesh.pos, &self.normals, &self.face_normals, &self.refs, &creases.entries, &creases.smoothness, false,
            &mut tangents, &mut CreateScratch::new(n, p, 0),
        )?;
        Ok((tangents, made))
    }
}

impl Mesh {
    /// The mesh of a file, and the normals that it stores.
    pub fn of_bytes(bytes: &[u8]) -> Result<(Mesh, Vec<f64>), Refused> {
        let room = bytes.len() / 50;
        let (mut pos, mut h, mut face_normals) = (vec![0.0; 9 * room], vec![0; 12 * room], vec![0.0; 3 * room]);
        let counts = read_stl(bytes, &mut pos, &mut h, &mut face_normals)?;
        pos.truncate(3 * counts.points);
        h.truncate(4 * counts.halfedges);
        face_normals.truncate(counts.halfedges);
        Ok((Mesh { counts, h, pos }, face_normals))
    }

    pub fn triangles(&self) -> usize {
        self.counts.halfedges / 3
    }

    /// The point at which a halfedge starts.
    fn start(&self, e: usize) -> usize {
        self.h[4 * e] as usize
    }

    pub fn pair(&self, e: usize) -> usize {
        self.h[4 * e + 2] as usize
    }

    /// The one of an edge's two halfedges that starts at the lower point.
    pub fn is_forward(&self, e: usize) -> bool {
        self.start(e) < self.start(self.pair(e))
    }

    /// Where a halfedge starts.
    pub fn corner(&self, e: usize) -> Vector {
        vector(&self.pos, self.start(e))
    }

    /// From start to end.
    fn edge(&self, e: usize) -> Vector {
        difference(self.corner(next(e)), self.corner(e))
    }

    /// The cross product of two edges of a triangle: at a right angle to it, and twice as long as it is large.
    fn outward(&self, t: usize) -> Vector {
        cross(self.edge(3 * t), self.edge(3 * t + 1))
    }

    /// The face references, and the number of faces. The largest triangles come first, as their planes are known best.
    fn faces(&self, outward: &[Vector]) -> (Vec<i32>, usize) {
        let greatest = self.pos.iter().fold(0.0, |most: f64, x| most.max(x.abs()));
        let mut face_of = vec![-1; outward.len()];
        let mut largest_first: Vec<usize> = (0..outward.len()).collect();
        largest_first.sort_by(|&s, &t| length(outward[t]).total_cmp(&length(outward[s])));
        let mut faces = 0;
        for t in largest_first {
            if face_of[t] < 0 {
                let plane = Plane { through: self.corner(3 * t), normal: unit(outward[t]), reach: IN_PLANE * greatest };
                self.spread_face(t, faces, &plane, outward, &mut face_of);
                faces += 1;
            }
        }
        (face_of.iter().flat_map(|&face| [1, face, face]).collect(), faces as usize)
    }

    /// Gives the face to a triangle, and over edges to each further one that is in the plane, faces the same way and has no face yet.
    fn spread_face(&self, first: usize, face: i32, plane: &Plane, outward: &[Vector], face_of: &mut [i32]) {
        face_of[first] = face;
        let mut waiting = vec![first];
        while let Some(t) = waiting.pop() {
            for pair in [3 * t, 3 * t + 1, 3 * t + 2].map(|e| self.pair(e)) {
                let other = pair / 3;
                if face_of[other] < 0 && plane.faces(outward[other]) && plane.holds(self.corner(next(next(pair)))) {
                    face_of[other] = face;
                    waiting.push(other);
                }
            }
        }
    }

    fn point_normals(&self, face_normals: &[f64]) -> Vec<f64> {
        let mut sums = vec![[0.0; 3]; self.counts.points];
        for e in 0..self.counts.halfedges {
            let (along, back) = (self.edge(e), self.edge(next(next(e))).map(|x| -x));
            let angle = length(cross(along, back)).atan2(dot(along, back));
            let normal = vector(face_normals, e / 3);
            let sum = &mut sums[self.start(e)];
            *sum = [0, 1, 2].map(|i| sum[i] + angle * normal[i]);
        }
        sums.into_iter().flat_map(unit).collect()
    }
}

/// How far a point may be from a plane and still lie in it, for each unit of the greatest coordinate: a few steps of f32 there.
const IN_PLANE: f64 = 1.0 / (1 << 21) as f64;

struct Plane {
    through: Vector,
    /// Zero for a triangle without area, in whose plane no other lies.
    normal: Vector,
    reach: f64,
}

impl Plane {
    fn holds(&self, point: Vector) -> bool {
        self.normal != [0.0; 3] && dot(self.normal, difference(point, self.through)).abs() <= self.reach
    }

    fn faces(&self, outward: Vector) -> bool {
        dot(self.normal, outward) >= 0.0
    }
}

/// The stored normals, with those whose length is not 1 worked out from the triangles, and how many these are.
fn face_normals(mut normals: Vec<f64>, outward: &[Vector]) -> (Vec<f64>, usize) {
    let mut replaced = 0;
    for (normal, &outward) in normals.chunks_exact_mut(3).zip(outward) {
        if !(0.999..=1.001).contains(&length(vector(normal, 0))) {
            normal.copy_from_slice(&unit(outward));
            replaced += 1;
        }
    }
    (normals, replaced)
}

/// Has the file 84 bytes, and 50 for each triangle that it counts?
fn has_binary_length(bytes: &[u8]) -> bool {
    let count = bytes.get(80..84).map(|four| u32::from_le_bytes([four[0], four[1], four[2], four[3]]));
    count.is_some_and(|count| bytes.len() as u64 == 84 + 50 * u64::from(count))
}

/// The next halfedge of the triangle.
fn next(e: usize) -> usize {
    if e % 3 == 2 { e - 2 } else { e + 1 }
}

fn vector(list: &[f64], i: usize) -> Vector {
    [list[3 * i], list[3 * i + 1], list[3 * i + 2]]
}

pub(crate) fn difference(a: Vector, b: Vector) -> Vector {
    [0, 1, 2].map(|i| a[i] - b[i])
}

pub(crate) fn dot(a: Vector, b: Vector) -> f64 {
    a[0] * b[0] + a[1] * b[1] + a[2] * b[2]
}

pub(crate) fn cross(a: Vector, b: Vector) -> Vector {
    [a[1] * b[2] - a[2] * b[1], a[2] * b[0] - a[0] * b[2], a[0] * b[1] - a[1] * b[0]]
}

pub(crate) fn length(a: Vector) -> f64 {
    dot(a, a).sqrt()
}

/// Scaled to length 1; zero stays zero.
fn unit(a: Vector) -> Vector {
    let length = length(a);
    if length > 0.0 { a.map(|x| x / length) } else { a }
}
