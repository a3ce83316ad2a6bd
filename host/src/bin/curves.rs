//! Draws the edges of a binary STL file as curves, each curve by the unit. `curves --help` says more.

use std::error::Error;
use std::process::ExitCode;
use tangents_host::drawing::Drawing;
use tangents_host::output::print;
use tangents_host::solid::arguments::{start, Arguments};
use tangents_host::solid::Solid;

const USAGE: &str = "curves FILE [ANGLE] [--clean]";

const HELP: &str = "
Reads a binary STL file, takes it as a mesh, makes its tangents from its creases as sharp edges, and
writes a picture of its edges as SVG: straight edges light, curves dark over their light chords. Mesh,
creases, tangents and points of the curves are the unit's.

ANGLE, in degrees, is how far the normals of two triangles must differ for their edge to be a crease: 30
if it is left out. --clean takes no edge for a crease that touches a sliver. Both as `stl --help` says.
Where three creases meet, edges start straight; above 90 degrees, edges at right angles are no creases.

An edge is straight where its curve lies along its chord. An edge inside a quad, the diagonal of a face
of two triangles, has no curve: the Rust evaluates none there. It is drawn by its light chord, and so is
an edge whose curve has a point that is not finite. The picture's description counts the edges, the
curves, and the edges of each kind that have none.

The view is from above, the front, and a little from the right, without perspective. The same arguments
give the same bytes.

Status 0 says that the picture, or this help, is written. A file that is refused gives the line `refused
NUMBER PLACE: ` and its meaning on standard error, and status 1. Status 1 with another line says that the
file cannot be read, that it looks like ASCII STL, or that the output cannot be written. Status 2 says
that the arguments are wrong.
";

fn run(arguments: &Arguments) -> Result<(), Box<dyn Error>> {
    let solid = Solid::read(&arguments.file)?;
    let creases = solid.creases(arguments.angle, arguments.rule)?;
    let (tangents, _) = solid.tangents(&creases)?;
    Ok(print(Drawing::of(&solid.mesh, &tangents)?.svg())?)
}

fn main() -> ExitCode {
    start(USAGE, HELP, &[], run)
}
