//! A picture of a mesh with tangents, as SVG: the chord of each edge light and, where its curve bends, the curve dark over it.
//!
//! The points of a curve are those of the unit's `curve_points`. Its control points are the edge's two ends and its two tangents, as
//! `bezier2bezier` of the Rust's src/interp_tri.rs has them. An edge marked inside a quad has tangents of weight -1, and the Rust evaluates no
//! curve on it: it is drawn by its chord alone, and so is an edge whose curve has a point that is not finite.

use crate::solid::{cross, difference, dot, length, Mesh, Vector};
use crate::{curve_points, Control, Refused};

/// How many points of a curve are drawn.
const POINTS: usize = 33;

/// How far a point of a straight edge may be from its chord, in lengths of the chord: less than the picture shows.
const ON_CHORD: f64 = 1e-6;

/// The longer side of the picture, and the margin within it.
const SIDE: f64 = 640.0;
const MARGIN: f64 = 16.0;

/// The directions in space that point to the right and up in the picture, of length 1 and at a right angle: an orthographic view from above,
/// the front, and a little from the right.
const RIGHT: Vector = [0.96, 0.28, 0.0];
const UP: Vector = [-0.224, 0.768, 0.6];

const LIGHT: &str = "#bbb";
const DARK: &str = "#222";

/// x, y, z and the weight.
type Tangent = [f64; 4];

/// Where a point is seen: how far to the right, and how far up.
type Place = [f64; 2];

fn homogeneous_4([x, y, z, w]: [f64; 4]) -> Control {
    [x * w, y * w, z * w, w]
}

fn homogeneous_3([x, y, z]: Vector) -> Control {
    [x, y, z, 1.0]
}

fn bezier(point: Vector, tangent: Tangent) -> Control {
    homogeneous_4([point[0] + tangent[0], point[1] + tangent[1], point[2] + tangent[2], tangent[3]])
}

/// The control points of an edge's curve, by its ends and the tangents there.
pub fn controls(ends: [Vector; 2], tangents: [Tangent; 2]) -> [Control; 4] {
    [homogeneous_3(ends[0]), bezier(ends[0], tangents[0]), bezier(ends[1], tangents[1]), homogeneous_3(ends[1])]
}

/// Chords and curves, not yet fitted into the picture.
#[derive(Default)]
pub struct Drawing {
    pub chords: Vec<[Place; 2]>,
    /// Those that bend.
    pub curves: Vec<[Place; POINTS]>,
    /// How many edges have a curve along their chord.
    pub straight: usize,
    /// How many edges are marked inside a quad.
    pub inside_quads: usize,
    /// How many other edges have a curve with a point that is not finite.
    pub not_finite: usize,
}

impl Drawing {
    /// Each edge once, from the start of its forward halfedge. The tangents have four numbers per halfedge.
    pub fn of(mesh: &Mesh, tangents: &[f64]) -> Result<Drawing, Refused> {
        let mut drawing = Drawing::default();
        for e in (0..mesh.counts.halfedges).filter(|&e| mesh.is_forward(e)) {
            let both = [e, mesh.pair(e)];
            drawing.add(both.map(|e| mesh.corner(e)), both.map(|e| [0, 1, 2, 3].map(|k| tangents[4 * e + k])))?;
        }
        Ok(drawing)
    }

    fn add(&mut self, ends: [Vector; 2], tangents: [Tangent; 2]) -> Result<(), Refused> {
        self.chords.push(ends.map(seen));
        if tangents.iter().any(|tangent| tangent[3] == -1.0) {
            self.inside_quads += 1;
            return Ok(());
        }
        let mut points = [[0.0; 3]; POINTS];
        curve_points(&controls(ends, tangents), POINTS, points.as_flattened_mut())?;
        if !points.as_flattened().iter().all(|x| x.is_finite()) {
            self.not_finite += 1;
        } else if is_straight(&points) {
            self.straight += 1;
        } else {
            self.curves.push(points.map(seen));
        }
        Ok(())
    }

    pub fn svg(&self) -> String {
        let Drawing { chords, curves, straight, inside_quads, not_finite } = self;
        let frame = Frame::around(chords.as_flattened().iter().chain(curves.as_flattened()));
        let [width, height] = frame.size().map(|side| format!("{side:.2}"));
        let counts = format!("{} edges: {} curves, {straight} straight, {inside_quads} inside quads, {not_finite} not finite", chords.len(), curves.len());
        let light = path(LIGHT, chords.iter().map(|chord| frame.line(chord)));
        let dark = path(DARK, curves.iter().map(|curve| frame.line(curve)));
        format!(
            "<svg xmlns=\"http://www.w3.org/2000/svg\" width=\"{width}\" height=\"{height}\" viewBox=\"0 0 {width} {height}\">\n\
             <title>Edges as curves</title>\n<desc>{counts}</desc>\n<rect width=\"100%\" height=\"100%\" fill=\"white\"/>\n{light}{dark}</svg>\n"
        )
    }
}

/// Do the points of a curve lie on the line of its ends?
fn is_straight(points: &[Vector; POINTS]) -> bool {
    let chord = difference(points[POINTS - 1], points[0]);
    points.iter().all(|&point| length(cross(chord, difference(point, points[0]))) <= ON_CHORD * dot(chord, chord))
}

fn seen(point: Vector) -> Place {
    [RIGHT, UP].map(|along| along[0] * point[0] + along[1] * point[1] + along[2] * point[2])
}

/// One path of several lines, each as `Frame::line` gives it.
fn path(colour: &str, lines: impl Iterator<Item = String>) -> String {
    let lines: String = lines.collect();
    format!("<path fill=\"none\" stroke=\"{colour}\" stroke-width=\"1.5\" stroke-linejoin=\"round\" stroke-linecap=\"round\" d=\"\n{lines}\"/>\n")
}

/// The rectangle of what is drawn, and how much it is scaled.
struct Frame {
    least: Place,
    greatest: Place,
    scale: f64,
}

impl Frame {
    fn around<'a>(places: impl Iterator<Item = &'a Place>) -> Frame {
        let (mut least, mut greatest) = ([f64::INFINITY; 2], [f64::NEG_INFINITY; 2]);
        for place in places {
            least = [0, 1].map(|i| least[i].min(place[i]));
            greatest = [0, 1].map(|i| greatest[i].max(place[i]));
        }
        let longer = (greatest[0] - least[0]).max(greatest[1] - least[1]);
        if longer > 0.0 {
            return Frame { least, greatest, scale: (SIDE - 2.0 * MARGIN) / longer };
        }
        // nothing is drawn, or one place alone
        Frame { least: [0.0; 2], greatest: [0.0; 2], scale: 0.0 }
    }

    /// Width and height of the picture.
    fn size(&self) -> [f64; 2] {
        [0, 1].map(|i| 2.0 * MARGIN + self.scale * (self.greatest[i] - self.least[i]))
    }

    /// A line through these places, as a path has it: x and y from the upper left corner.
    fn line(&self, places: &[Place]) -> String {
        let point = |[right, up]: &Place| {
            format!(" {:.2} {:.2}", MARGIN + self.scale * (right - self.least[0]), MARGIN + self.scale * (self.greatest[1] - up))
        };
        format!("M{}\n", places.iter().map(point).collect::<String>())
    }
}
